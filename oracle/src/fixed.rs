//! The fixed list: small jobs with the original's answers, in one file that
//! needs nothing else. README.md gives the layout.

use std::io::Write;
use std::process::{Command, Stdio};

use crate::book::{Book, house_codebook};
use crate::bytes::Source;
use crate::job::Job;
use crate::make::{job_of_size, moved_job, other_settings, random_book, random_codebook};
use crate::random::Random;
use crate::stream::{emit, head, unsigned};

const SEED: u64 = 2026;
const CORNERS: [(usize, usize); 8] = [
    (1, 1),
    (1, 16),
    (16, 1),
    (16, 16),
    (17, 1),
    (1, 17),
    (17, 17),
    (48, 40),
];
const ONE_BLOCK_SCENES: usize = 30;
const TWO_BLOCK_SCENES: usize = 21;
const FOUR_BLOCK_SCENES: usize = 8;
const LARGE_SCENES: usize = 2;
const JOBS_IN_A_SCENE: usize = 3;

struct Task {
    book: usize,
    codebook: usize,
    job: Job,
}

/// Jobs over the same samples.
type Scene = Vec<Task>;

struct List {
    books: Vec<Book>,
    codebooks: Vec<Vec<i8>>,
    scenes: Vec<Scene>,
}

/// Writes the list with its answers to standard output.
pub fn fixed() -> Result<(), String> {
    let list = make();
    let answers = answers(&list)?;
    let mut out = vec![list.books.len() as u8, list.codebooks.len() as u8];
    out.extend((list.scenes.len() as u16).to_le_bytes());
    for book in &list.books {
        out.extend(book.to_bytes());
    }
    for codebook in &list.codebooks {
        out.extend(unsigned(codebook));
    }
    for (scene, answers) in list.scenes.iter().zip(&answers) {
        out.extend(scene_bytes(scene, answers));
    }
    emit(&out)
}

fn scene_bytes(scene: &Scene, answers: &[Vec<u8>]) -> Vec<u8> {
    let first = &scene[0].job;
    let mut out = (first.width as u16).to_le_bytes().to_vec();
    out.extend((first.height as u16).to_le_bytes());
    out.extend(&first.source);
    out.extend(&first.reference);
    out.push(scene.len() as u8);
    for (task, answer) in scene.iter().zip(answers) {
        out.push(task.book as u8);
        out.push(task.codebook as u8);
        out.extend(task.job.settings());
        out.extend(answer);
    }
    out
}

// ---- the jobs ----

fn make() -> List {
    let mut random = Random::new(SEED);
    let books = vec![
        Book::house(),
        random_book(&mut random, 16),
        random_book(&mut random, 32),
    ];
    let codebooks = vec![
        house_codebook(),
        random_codebook(&mut random, |random| random.between(-20, 20) as i8),
    ];
    let mut scenes = vec![card_scene()];
    for size in sizes() {
        let mut random = Random::of(SEED, scenes.len() as u64);
        scenes.push(scene(&mut random, size));
    }
    List {
        books,
        codebooks,
        scenes,
    }
}

/// The sizes of the scenes after the cards.
fn sizes() -> Vec<(usize, usize)> {
    let mut random = Random::new(SEED);
    let mut sizes = CORNERS.to_vec();
    for _ in 0..ONE_BLOCK_SCENES {
        sizes.push((up_to(&mut random, 16), up_to(&mut random, 16)));
    }
    for _ in 0..TWO_BLOCK_SCENES {
        let (long, short) = (16 + up_to(&mut random, 16), up_to(&mut random, 16));
        sizes.push(random.pick(&[(long, short), (short, long)]));
    }
    for _ in 0..FOUR_BLOCK_SCENES {
        sizes.push((16 + up_to(&mut random, 16), 16 + up_to(&mut random, 16)));
    }
    for _ in 0..LARGE_SCENES {
        sizes.push((32 + up_to(&mut random, 16), 16 + up_to(&mut random, 24)));
    }
    sizes
}

/// A size, often the largest.
fn up_to(random: &mut Random, most: usize) -> usize {
    if random.one_in(4) {
        most
    } else {
        1 + random.below(most)
    }
}

/// Document 01's first two cards, and the first without the flag.
fn card_scene() -> Scene {
    let card = |lambda: u64, four: bool| Task {
        book: 0,
        codebook: 0,
        job: Job {
            width: 16,
            height: 16,
            lambda,
            radius: 8,
            four,
            source: vec![100; 256],
            reference: vec![0; 256],
        },
    };
    vec![card(32, true), card(u64::MAX, true), card(32, false)]
}

fn scene(random: &mut Random, (width, height): (usize, usize)) -> Scene {
    let movable = width.max(height) > 16;
    let first = if movable && !random.one_in(3) {
        moved_job(random, width, height)
    } else {
        job_of_size(random, width, height)
    };
    let mut scene = Vec::new();
    for _ in 0..JOBS_IN_A_SCENE {
        scene.push(Task {
            book: random.pick(&[0, 0, 1, 2]),
            codebook: random.below(2),
            job: other_settings(random, &first),
        });
    }
    scene
}

// ---- the answers ----

/// The answers' bytes for each scene's jobs. The original keeps its tables
/// for the life of a process, so each pair of tables has its own batch.
fn answers(list: &List) -> Result<Vec<Vec<Vec<u8>>>, String> {
    let mut answers: Vec<Vec<Vec<u8>>> = list
        .scenes
        .iter()
        .map(|scene| vec![Vec::new(); scene.len()])
        .collect();
    for book in 0..list.books.len() {
        for codebook in 0..list.codebooks.len() {
            let places = places_with(list, book, codebook);
            let mut input = head(&list.books[book], &list.codebooks[codebook]);
            for &(scene, task) in &places {
                input.extend(list.scenes[scene][task].job.to_bytes());
            }
            let mut output = Source::new(batch_in_child(&input)?);
            for (scene, task) in places {
                let job = &list.scenes[scene][task].job;
                answers[scene][task] = one_answer(&mut output, job).ok_or("a short answer")?;
            }
        }
    }
    Ok(answers)
}

/// Scene and number of every job under one pair of tables.
fn places_with(list: &List, book: usize, codebook: usize) -> Vec<(usize, usize)> {
    let mut places = Vec::new();
    for (scene, tasks) in list.scenes.iter().enumerate() {
        for (number, task) in tasks.iter().enumerate() {
            if task.book == book && task.codebook == codebook {
                places.push((scene, number));
            }
        }
    }
    places
}

fn batch_in_child(input: &[u8]) -> Result<Vec<u8>, String> {
    let start = || -> std::io::Result<Vec<u8>> {
        let mut child = Command::new(std::env::current_exe()?)
            .arg("batch")
            .stdin(Stdio::piped())
            .stdout(Stdio::piped())
            .spawn()?;
        // The batch reads all of its input before it answers.
        child.stdin.take().expect("piped").write_all(input)?;
        let output = child.wait_with_output()?;
        match output.status.success() {
            true => Ok(output.stdout),
            false => Err(std::io::Error::other("the batch failed")),
        }
    };
    start().map_err(|error| error.to_string())
}

/// One answer's bytes out of a batch's output.
fn one_answer(output: &mut Source, job: &Job) -> Option<Vec<u8>> {
    let blocks = job.stride() * job.rows() / 256;
    let bit_count = output.u32()?;
    let mut answer = bit_count.to_le_bytes().to_vec();
    let rest = bit_count.div_ceil(8) as usize + 7 * blocks + 256 * blocks + 8 * blocks;
    answer.extend(output.take(rest)?);
    Some(answer)
}

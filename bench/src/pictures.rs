//! Both writers on the same pictures.

use crate::clock::seconds;
use crate::job::Job;
use crate::library::Lent;
use crate::scenes::{Case, PLANES, cases, find};
use crate::svq1_enc::{BitWriter, Svq1PlaneRef};
use crate::svq1_enc_inter::call_encode_inter_plane;
use crate::svq1_plane::Svq1PlaneCanvas;

/// Pictures that both write; ours writes each as often again as TURNS says.
const PICTURES: u32 = 3;
const TURNS: u32 = 8;

/// The untouched original: its bytes and its bit count.
#[inline(never)]
fn original(job: &Job) -> (Vec<u8>, usize) {
    let source = Svq1PlaneRef {
        samples: &job.source,
        width: job.width,
        height: job.height,
    };
    let mut reference = Svq1PlaneCanvas::new(job.width, job.height);
    reference.samples.copy_from_slice(&job.reference);
    let mut writer = BitWriter::new();
    call_encode_inter_plane(
        &mut writer,
        &source,
        &reference,
        &crate::answer::params(job),
    )
    .expect("an accepted plane");
    let bits = writer.bits_written();
    (writer.into_bytes(), bits)
}

#[inline(never)]
fn ours(job: &Job, lent: &mut Lent) -> usize {
    let answer = lent.write(job);
    assert_eq!(answer.refusal, 0, "an accepted plane");
    answer.bits as usize
}

#[derive(Default)]
struct Sums {
    planes: u32,
    bits: usize,
    error: u64,
    samples: usize,
    original: f64,
    ours: f64,
}

/// Instructions of one luma plane by both, in millions, for a case; from a
/// file with a line for each: scene, size, radius, the original's, ours.
fn instructions(counts: &str, case: &Case) -> Result<String, String> {
    let key = format!("{} {} {} ", case.scene, case.size(), case.radius);
    let line = counts.lines().find_map(|line| line.strip_prefix(&key));
    let numbers: Vec<f64> = line
        .unwrap_or_default()
        .split(' ')
        .filter_map(|word| word.parse().ok())
        .collect();
    match numbers[..] {
        [original, ours] => Ok(format!(
            " {:.0} | {:.1} | {:.1} |",
            original / 1e6,
            ours / 1e6,
            original / ours
        )),
        _ => Err(format!("no instructions counted for {key}")),
    }
}

/// Both writers on every case; with counted instructions beside the times
/// where there is a file of them.
pub fn table(counts: Option<&str>) -> Result<(), String> {
    let counts = match counts {
        Some(name) => Some(std::fs::read_to_string(name).map_err(|error| error.to_string())?),
        None => None,
    };
    println!(
        "processor seconds, {PICTURES} pictures of three planes (luma, and two of a quarter of each side), lambda 32, four vectors"
    );
    println!("bits, reconstruction and vectors are the same in both\n");
    let (more, rule) = match counts {
        Some(_) => (
            " original: million instructions a luma plane | ours | ratio |",
            "---|---|---|",
        ),
        None => ("", ""),
    };
    println!(
        "| scene | luma | radius | bits a picture | luma dB | original: planes/s | pictures/s | ours: planes/s | pictures/s | ratio |{more}"
    );
    println!("|---|---|---|---|---|---|---|---|---|---|{rule}");
    for case in cases() {
        let counted = match &counts {
            Some(counts) => instructions(counts, &case)?,
            None => String::new(),
        };
        row(&case, &counted)?;
    }
    Ok(())
}

fn row(case: &Case, counted: &str) -> Result<(), String> {
    let mut sums = Sums::default();
    let mut references: [Option<Vec<u8>>; PLANES] = [None, None, None];
    for picture in 0..=PICTURES {
        for (plane, reference) in references.iter_mut().enumerate() {
            let job = case.job(plane, picture, reference.take());
            // The first picture has no picture before it and is not counted.
            *reference = Some(if picture == 0 {
                let mut lent = Lent::of(&job);
                ours(&job, &mut lent);
                lent.recon
            } else {
                both(&job, plane, &mut sums)?
            });
        }
    }
    let pictures = f64::from(PICTURES);
    let planes = f64::from(sums.planes);
    let mean = sums.error as f64 / sums.samples as f64;
    println!(
        "| {} | {} | {} | {:.0} | {:.2} | {:.2} | {:.2} | {:.1} | {:.1} | {:.1} |{counted}",
        case.scene,
        case.size(),
        case.radius,
        sums.bits as f64 / pictures,
        10.0 * (255.0 * 255.0 / mean).log10(),
        planes / sums.original,
        pictures / sums.original,
        planes / sums.ours,
        pictures / sums.ours,
        sums.original / sums.ours
    );
    Ok(())
}

/// One plane by both; answers the reconstruction.
fn both(job: &Job, plane: usize, sums: &mut Sums) -> Result<Vec<u8>, String> {
    let mut lent = Lent::of(job);
    let ((bytes, bits), time) = seconds(|| original(job));
    sums.original += time;
    let (turns, time) = seconds(|| {
        let mut turns = 0;
        for _ in 0..TURNS {
            turns += ours(job, &mut lent);
        }
        turns
    });
    sums.ours += time / f64::from(TURNS);
    if turns != bits * TURNS as usize || lent.out[..bytes.len()] != bytes[..] {
        return Err("the bits differ".into());
    }
    let recorded = crate::answer::answer(job);
    if lent.recon != recorded.reconstruction || lent.vx != recorded.x || lent.vy != recorded.y {
        return Err("reconstruction or vectors differ".into());
    }
    sums.planes += 1;
    sums.bits += bits;
    if plane == 0 {
        sums.error += visible_error(job, &lent.recon);
        sums.samples += job.source.len();
    }
    Ok(lent.recon)
}

fn visible_error(job: &Job, recon: &[u8]) -> u64 {
    let rows = job.source.chunks(job.width).zip(recon.chunks(job.stride()));
    rows.flat_map(|(source, recon)| source.iter().zip(recon))
        .map(|(&a, &b)| u64::from(a.abs_diff(b)).pow(2))
        .sum()
}

/// The second picture's luma plane by one of the two, once.
pub fn one(whose: &str, scene: &str, size: &str, radius: &str) -> Result<(), String> {
    let case = find(scene, size, radius)?;
    // The reference is the picture before it as it was drawn: both get the
    // same, and no plane is written before the one that is counted.
    let mut job = case.job(0, 1, None);
    let before = case.draw(0, 0);
    let stride = job.stride();
    for (into, from) in job
        .reference
        .chunks_mut(stride)
        .zip(before.chunks(job.width))
    {
        into[..from.len()].copy_from_slice(from);
    }
    let bits = match whose {
        "ours" => ours(&job, &mut Lent::of(&job)),
        "original" => original(&job).1,
        "neither" => 0,
        _ => return Err(format!("no writer {whose}")),
    };
    println!("{bits}");
    Ok(())
}

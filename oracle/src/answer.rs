//! The original's answer to a job, with the checks that make the recording
//! twin trustworthy.

use crate::bitreader::BitReader;
use crate::error::Error;
use crate::job::Job;
use crate::svq1_enc::{BitWriter, Svq1PlaneRef};
use crate::svq1_enc_inter::{
    Allowance, Recorder, Svq1InterParams, call_encode_inter_plane, recorded_inter_plane,
};
use crate::svq1_plane::{Svq1PlaneCanvas, decode_inter_plane};
use crate::svq1_vlc::MAX_CODE_LENGTH;
use crate::tables;

/// Mode names by position in the mode table.
pub const MODES: [&str; 4] = ["INTER", "INTER_4MV", "INTRA", "SKIP"];

pub struct Block {
    pub mode: u8,
    pub bits: u32,
    pub error: u32,
    /// Whether an allowance did not hold the first choice.
    pub forced: bool,
}

pub struct Answer {
    pub bit_count: usize,
    /// The bits, highest first, unused low bits 0.
    pub bits: Vec<u8>,
    pub blocks: Vec<Block>,
    pub reconstruction: Vec<u8>,
    /// One two's complement byte for each 8×8 block.
    pub x: Vec<u8>,
    pub y: Vec<u8>,
}

/// Runs the recording twin and the untouched writer on `job`.
pub fn answer(job: &Job) -> Answer {
    let (answer, _) = recorded(job, None);
    let mut plain = BitWriter::new();
    call_encode_inter_plane(&mut plain, &source(job), &canvas(job), &params(job))
        .expect("an accepted plane");
    assert_eq!(plain.bits_written(), answer.bit_count, "twin's bit count");
    assert_eq!(plain.into_bytes(), answer.bits, "twin's bits");
    answer
}

/// Runs the recording twin alone, with the modes that fit what is left of
/// an allowance, and gives what is left of it behind the plane.
pub fn answer_within(job: &Job, allowance: Allowance) -> (Answer, Allowance) {
    let (answer, left) = recorded(job, Some(allowance));
    (answer, left.expect("the allowance"))
}

fn recorded(job: &Job, allowance: Option<Allowance>) -> (Answer, Option<Allowance>) {
    let source = source(job);
    let mut writer = BitWriter::new();
    let mut record = Recorder::within(allowance);
    recorded_inter_plane(
        &mut record,
        &mut writer,
        &source,
        &canvas(job),
        &params(job),
    )
    .expect("an accepted plane");
    let bit_count = writer.bits_written();
    check_lengths(&record, bit_count);
    check_errors(&record, job, &source);
    let left = record.allowance;
    let answer = gather(record, job, bit_count, writer.into_bytes());
    check_decoder(job, &answer);
    (answer, left)
}

/// The plane that the original's own decoder makes of `bits`, with the
/// number of bits it took.
pub fn decode(job: &Job, bits: &[u8], end: usize) -> Result<(Vec<u8>, usize), Error> {
    let mut reader = BitReader::with_end(bits, end);
    let plane = decode_inter_plane(&mut reader, job.width, job.height, &canvas(job))?;
    Ok((plane.samples, reader.position()))
}

fn source(job: &Job) -> Svq1PlaneRef<'_> {
    Svq1PlaneRef {
        samples: &job.source,
        width: job.width,
        height: job.height,
    }
}

fn canvas(job: &Job) -> Svq1PlaneCanvas {
    let mut canvas = Svq1PlaneCanvas::new(job.width, job.height);
    canvas.samples.copy_from_slice(&job.reference);
    canvas
}

pub fn params(job: &Job) -> Svq1InterParams {
    Svq1InterParams {
        lambda: job.lambda,
        search_radius: job.radius,
        allow_4mv: job.four,
        ..Svq1InterParams::default()
    }
}

/// Each macroblock must append exactly its stated bits.
fn check_lengths(record: &Recorder, bit_count: usize) {
    assert_eq!(record.end, bit_count);
    let mut next = 0;
    for block in &record.blocks {
        assert_eq!(block.start, next, "stated bits are not those appended");
        next += block.bits as usize;
    }
    assert_eq!(next, bit_count, "stated bits are not those appended");
}

/// Each stated error must be the squared distance to the padded source.
fn check_errors(record: &Recorder, job: &Job, source: &Svq1PlaneRef<'_>) {
    for (index, block) in record.blocks.iter().enumerate() {
        let (row, column) = (index / job.columns(), index % job.columns());
        let target = source.block(column * 16, row * 16, 16, 16);
        let pairs = target.iter().zip(&block.samples);
        let distance: u64 = pairs
            .map(|(&wanted, &got)| u64::from(wanted.abs_diff(got)).pow(2))
            .sum();
        assert_eq!(block.error, distance, "stated error is not the distance");
    }
}

/// The original's own decoder must take the same bits and show the same
/// samples. It accepts no longer codes than `MAX_CODE_LENGTH`.
fn check_decoder(job: &Job, answer: &Answer) {
    if tables::longest() > MAX_CODE_LENGTH {
        return;
    }
    let (samples, taken) = decode(job, &answer.bits, answer.bit_count).expect("readable bits");
    assert_eq!(taken, answer.bit_count, "bits the decoder took");
    assert_eq!(samples, answer.reconstruction, "samples the decoder made");
}

fn gather(record: Recorder, job: &Job, bit_count: usize, bits: Vec<u8>) -> Answer {
    let mut reconstruction = vec![0; job.stride() * job.rows()];
    for (index, block) in record.blocks.iter().enumerate() {
        let (top, left) = (index / job.columns() * 16, index % job.columns() * 16);
        for (row, samples) in block.samples.chunks(16).enumerate() {
            let start = (top + row) * job.stride() + left;
            reconstruction[start..start + 16].copy_from_slice(samples);
        }
    }
    let blocks = record.blocks.iter().map(|block| Block {
        mode: block.mode as u8,
        bits: block.bits,
        error: block.error as u32,
        forced: block.forced,
    });
    Answer {
        bit_count,
        bits,
        blocks: blocks.collect(),
        reconstruction,
        x: record.vectors.iter().map(|vector| vector.x as u8).collect(),
        y: record.vectors.iter().map(|vector| vector.y as u8).collect(),
    }
}

impl Answer {
    /// The batch form: bit count (4 bytes), the bits' bytes; for each
    /// macroblock mode (1), bits (2) and error (4); reconstruction, x and y
    /// vectors. Numbers are little-endian.
    pub fn to_bytes(&self) -> Vec<u8> {
        let mut out = (self.bit_count as u32).to_le_bytes().to_vec();
        out.extend(&self.bits);
        for block in &self.blocks {
            out.push(block.mode);
            out.extend((block.bits as u16).to_le_bytes());
            out.extend(block.error.to_le_bytes());
        }
        out.extend(&self.reconstruction);
        out.extend(&self.x);
        out.extend(&self.y);
        out
    }

    /// Document 01's listing, with the errors over visible samples that
    /// document 02, §1, asks for.
    pub fn listing(&self, job: &Job) -> String {
        let mut out = String::new();
        let mut total = 0;
        for (index, block) in self.blocks.iter().enumerate() {
            let (row, column) = (index / job.columns(), index % job.columns());
            let mode = MODES[usize::from(block.mode)];
            let error = self.visible_error(job, row, column);
            total += error;
            out += &format!("{row},{column},{mode},{},{error}\n", block.bits);
        }
        out + &format!("total,{},{total}\n", self.bit_count)
    }

    /// A macroblock's squared error over the samples inside the picture.
    fn visible_error(&self, job: &Job, row: usize, column: usize) -> u64 {
        let mut sum = 0;
        for y in (row * 16..row * 16 + 16).filter(|&y| y < job.height) {
            for x in (column * 16..column * 16 + 16).filter(|&x| x < job.width) {
                let shown = self.reconstruction[y * job.stride() + x];
                sum += u64::from(job.source[y * job.width + x].abs_diff(shown)).pow(2);
            }
        }
        sum
    }
}

//! One plane to write, as bytes and as document 01's files.

use std::fs;
use std::path::Path;

use crate::bytes::Source;

#[derive(Clone)]
pub struct Job {
    pub width: usize,
    pub height: usize,
    pub lambda: u64,
    pub radius: u8,
    pub four: bool,
    /// width × height samples.
    pub source: Vec<u8>,
    /// stride × rows samples.
    pub reference: Vec<u8>,
}

/// A size rounded up to whole macroblocks.
pub fn padded(size: usize) -> usize {
    size.div_ceil(16) * 16
}

impl Job {
    pub fn stride(&self) -> usize {
        padded(self.width)
    }

    pub fn rows(&self) -> usize {
        padded(self.height)
    }

    pub fn columns(&self) -> usize {
        self.stride() / 16
    }

    /// The batch form: width and height (2 bytes each), lambda (8), radius,
    /// flag, source, reference; numbers are little-endian.
    pub fn to_bytes(&self) -> Vec<u8> {
        let mut out = Vec::new();
        out.extend((self.width as u16).to_le_bytes());
        out.extend((self.height as u16).to_le_bytes());
        out.extend(self.settings());
        out.extend(&self.source);
        out.extend(&self.reference);
        out
    }

    /// Lambda, radius and flag.
    pub fn settings(&self) -> Vec<u8> {
        let mut out = self.lambda.to_le_bytes().to_vec();
        out.push(self.radius);
        out.push(u8::from(self.four));
        out
    }

    /// The next job of a batch, or nothing at its end.
    pub fn read(from: &mut Source) -> Option<Self> {
        let width = usize::from(from.u16()?);
        let height = usize::from(from.u16().expect("height"));
        let lambda = from.u64().expect("lambda");
        let radius = from.u8().expect("radius");
        let four = from.u8().expect("flag") != 0;
        let source = from.take(width * height).expect("source");
        let reference = from
            .take(padded(width) * padded(height))
            .expect("reference");
        Some(Self {
            width,
            height,
            lambda,
            radius,
            four,
            source,
            reference,
        })
    }

    pub fn read_files(folder: &Path) -> Result<Self, String> {
        let line = read_text(&folder.join("job.txt"))?;
        let fields: Vec<&str> = line.trim_end().split(',').collect();
        let [width, height, lambda, radius, four, margin] = fields[..] else {
            return Err("job.txt wants six numbers".into());
        };
        if margin != "0" {
            return Err(format!("margin {margin}: the original has none but 0"));
        }
        let bad = |field: &str| format!("bad number in job.txt: {field}");
        let job = Self {
            width: width.parse().map_err(|_| bad(width))?,
            height: height.parse().map_err(|_| bad(height))?,
            lambda: lambda.parse().map_err(|_| bad(lambda))?,
            radius: radius.parse().map_err(|_| bad(radius))?,
            four: four == "1",
            source: read_bytes(&folder.join("source.bin"))?,
            reference: read_bytes(&folder.join("reference.bin"))?,
        };
        job.check()?;
        Ok(job)
    }

    /// The sizes that document 01 accepts.
    fn check(&self) -> Result<(), String> {
        let allowed = 1..=1024;
        if !allowed.contains(&self.width) || !allowed.contains(&self.height) {
            return Err("the size is outside 1 to 1,024".into());
        }
        if self.source.len() != self.width * self.height {
            return Err("source.bin has the wrong length".into());
        }
        if self.reference.len() != self.stride() * self.rows() {
            return Err("reference.bin has the wrong length".into());
        }
        Ok(())
    }

    /// The margin in job.txt is 0: the original has none.
    pub fn write_files(&self, folder: &Path) -> Result<(), String> {
        let line = format!(
            "{},{},{},{},{},0\n",
            self.width,
            self.height,
            self.lambda,
            self.radius,
            u8::from(self.four)
        );
        write(&folder.join("job.txt"), line.as_bytes())?;
        write(&folder.join("source.bin"), &self.source)?;
        write(&folder.join("reference.bin"), &self.reference)
    }
}

pub fn read_bytes(path: &Path) -> Result<Vec<u8>, String> {
    fs::read(path).map_err(|error| format!("{}: {error}", path.display()))
}

pub fn read_text(path: &Path) -> Result<String, String> {
    fs::read_to_string(path).map_err(|error| format!("{}: {error}", path.display()))
}

pub fn write(path: &Path, bytes: &[u8]) -> Result<(), String> {
    fs::write(path, bytes).map_err(|error| format!("{}: {error}", path.display()))
}

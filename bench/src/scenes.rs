//! The pictures: the C example's scene (`host/scene.c`), seen by an eye
//! that stands still and by one that turns, in two sizes.

use crate::job::Job;

unsafe extern "C" {
    fn scene_draw(
        samples: *mut u8,
        width: usize,
        height: usize,
        plane: i32,
        eye: i32,
        picture: u32,
    );
}

#[derive(Clone, Copy)]
pub struct Case {
    pub scene: &'static str,
    pub eye: i32,
    pub width: usize,
    pub height: usize,
    pub radius: u8,
}

const SCENES: [(&str, i32); 2] = [("still", 0), ("turning", 1)];
const SIZES: [(usize, usize); 2] = [(176, 144), (352, 288)];
const RADII: [u8; 2] = [8, 32];
const LAMBDA: u64 = 32;
pub const PLANES: usize = 3;

/// Every scene in every size with every radius.
pub fn cases() -> Vec<Case> {
    let mut all = Vec::new();
    for (width, height) in SIZES {
        for (scene, eye) in SCENES {
            for radius in RADII {
                all.push(Case {
                    scene,
                    eye,
                    width,
                    height,
                    radius,
                });
            }
        }
    }
    all
}

impl Case {
    pub fn size(&self) -> String {
        format!("{}x{}", self.width, self.height)
    }

    /// Luma, or one of two planes of a quarter of each side.
    fn plane_size(&self, plane: usize) -> (usize, usize) {
        match plane {
            0 => (self.width, self.height),
            _ => (self.width / 4, self.height / 4),
        }
    }

    pub fn draw(&self, plane: usize, picture: u32) -> Vec<u8> {
        let (width, height) = self.plane_size(plane);
        let mut samples = vec![0; width * height];
        // Safety: the samples are width × height bytes.
        unsafe {
            scene_draw(
                samples.as_mut_ptr(),
                width,
                height,
                plane as i32,
                self.eye,
                picture,
            );
        }
        samples
    }

    /// The plane of a picture against a reference; gray without one.
    pub fn job(&self, plane: usize, picture: u32, reference: Option<Vec<u8>>) -> Job {
        let (width, height) = self.plane_size(plane);
        let mut job = Job {
            width,
            height,
            lambda: LAMBDA,
            radius: self.radius,
            four: true,
            source: self.draw(plane, picture),
            reference: Vec::new(),
        };
        job.reference = reference.unwrap_or_else(|| vec![128; job.stride() * job.rows()]);
        job
    }
}

pub fn find(scene: &str, size: &str, radius: &str) -> Result<Case, String> {
    cases()
        .into_iter()
        .find(|case| {
            case.scene == scene && case.size() == size && case.radius.to_string() == radius
        })
        .ok_or_else(|| format!("no case {scene} {size} {radius}"))
}

pub fn list() -> Result<(), String> {
    for case in cases() {
        println!("{} {} {}", case.scene, case.size(), case.radius);
    }
    Ok(())
}

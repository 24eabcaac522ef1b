//! The proved functions, linked from the static library of the crate `call_entries`.

/// The original has no margin: what is compared with it is asked at this one.
pub const NO_MARGIN: u32 = 0;

#[repr(C)]
#[derive(Clone, Copy, Debug, PartialEq, Eq)]
pub struct Leaf {
    pub bits: u32,
    pub error: u32,
    pub mean: i16,
    pub refused: u8,
    /// 2 skip, 3 coded.
    pub kind: u8,
    pub count: u8,
    pub stages: [u8; 6],
    pub samples: [u8; 256],
}

impl Leaf {
    /// A refusal's number and zeros.
    pub fn refused(refused: u8) -> Self {
        Self {
            bits: 0,
            error: 0,
            mean: 0,
            refused,
            kind: 0,
            count: 0,
            stages: [0; 6],
            samples: [0; 256],
        }
    }
}

/// A block of a plan's tree.
#[repr(C)]
#[derive(Clone, Copy, Debug, PartialEq, Eq)]
pub struct Node {
    pub mean: i16,
    /// 0 not reached, 1 split, 2 skip, 3 coded.
    pub kind: u8,
    pub count: u8,
    pub stages: [u8; 6],
}

impl Node {
    /// A block that is not reached.
    pub fn none() -> Self {
        Self {
            mean: 0,
            kind: 0,
            count: 0,
            stages: [0; 6],
        }
    }
}

#[repr(C)]
#[derive(Clone, Copy, Debug, PartialEq, Eq)]
pub struct Plan {
    pub bits: u32,
    pub error: u32,
    pub nodes: [Node; 63],
    pub refused: u8,
    pub samples: [u8; 256],
}

impl Plan {
    /// A refusal's number and zeros.
    pub fn refused(refused: u8) -> Self {
        Self {
            bits: 0,
            error: 0,
            nodes: [Node::none(); 63],
            refused,
            samples: [0; 256],
        }
    }
}

#[repr(C)]
#[derive(Clone, Copy, Debug, PartialEq, Eq)]
pub struct Vector {
    pub refused: u8,
    pub x: i32,
    pub y: i32,
}

impl Vector {
    /// A refusal's number and zeros.
    pub fn refused(refused: u8) -> Self {
        Self {
            refused,
            x: 0,
            y: 0,
        }
    }
}

/// A vector's sum of absolute differences and the rows taken.
#[repr(C)]
#[derive(Clone, Copy, Debug, PartialEq, Eq)]
pub struct Sum {
    pub sum: u64,
    pub rows: usize,
    pub refused: u8,
}

impl Sum {
    /// A refusal's number and zeros.
    pub fn refused(refused: u8) -> Self {
        Self {
            sum: 0,
            rows: 0,
            refused,
        }
    }
}

unsafe extern "C" {
    fn parts_search_leaf(
        book: *const u8,
        book_length: usize,
        codebook: *const u8,
        codebook_length: usize,
        level: u8,
        half: u8,
        target: *const u8,
        target_length: usize,
        predictor: *const u8,
        predictor_length: usize,
        cap: u8,
        skip: u8,
        margin: u32,
    ) -> Leaf;

    fn parts_plan_macroblock(
        book: *const u8,
        book_length: usize,
        codebook: *const u8,
        codebook_length: usize,
        level: u8,
        half: u8,
        target: *const u8,
        target_length: usize,
        predictor: *const u8,
        predictor_length: usize,
        cap: u8,
        skip: u8,
        lambda: u64,
        margin: u32,
    ) -> Plan;

    fn parts_search_motion_vector(
        reference: *const u8,
        reference_length: usize,
        width: usize,
        height: usize,
        stride: usize,
        rows: usize,
        target: *const u8,
        target_length: usize,
        side: usize,
        x: usize,
        y: usize,
        px: i32,
        py: i32,
        radius: u8,
    ) -> Vector;

    fn parts_sum_motion_vector(
        reference: *const u8,
        reference_length: usize,
        width: usize,
        height: usize,
        stride: usize,
        rows: usize,
        target: *const u8,
        target_length: usize,
        side: usize,
        x: usize,
        y: usize,
        px: i32,
        py: i32,
        vx: i32,
        vy: i32,
        best: u64,
    ) -> Sum;
}

/// What a leaf search is asked, right or wrong.
#[derive(Clone)]
pub struct LeafCall {
    pub book: Vec<u8>,
    pub codebook: Vec<u8>,
    pub level: u8,
    pub half: u8,
    pub target: Vec<u8>,
    pub predictor: Vec<u8>,
    pub cap: u8,
    pub skip: u8,
    pub margin: u32,
}

impl LeafCall {
    pub fn ask(&self) -> Leaf {
        // Safety: each pointer is a slice's, with that slice's length, and
        // the function takes any numbers.
        unsafe {
            parts_search_leaf(
                self.book.as_ptr(),
                self.book.len(),
                self.codebook.as_ptr(),
                self.codebook.len(),
                self.level,
                self.half,
                self.target.as_ptr(),
                self.target.len(),
                self.predictor.as_ptr(),
                self.predictor.len(),
                self.cap,
                self.skip,
                self.margin,
            )
        }
    }
}

/// What a plan is asked, right or wrong.
#[derive(Clone)]
pub struct PlanCall {
    pub block: LeafCall,
    pub lambda: u64,
}

impl PlanCall {
    pub fn ask(&self) -> Plan {
        let block = &self.block;
        // Safety: as above.
        unsafe {
            parts_plan_macroblock(
                block.book.as_ptr(),
                block.book.len(),
                block.codebook.as_ptr(),
                block.codebook.len(),
                block.level,
                block.half,
                block.target.as_ptr(),
                block.target.len(),
                block.predictor.as_ptr(),
                block.predictor.len(),
                block.cap,
                block.skip,
                self.lambda,
                block.margin,
            )
        }
    }
}

/// What a motion search is asked, right or wrong.
#[derive(Clone)]
pub struct VectorCall {
    pub reference: Vec<u8>,
    pub width: usize,
    pub height: usize,
    pub stride: usize,
    pub rows: usize,
    pub target: Vec<u8>,
    pub side: usize,
    pub x: usize,
    pub y: usize,
    pub px: i32,
    pub py: i32,
    pub radius: u8,
}

impl VectorCall {
    pub fn ask(&self) -> Vector {
        // Safety: as above.
        unsafe {
            parts_search_motion_vector(
                self.reference.as_ptr(),
                self.reference.len(),
                self.width,
                self.height,
                self.stride,
                self.rows,
                self.target.as_ptr(),
                self.target.len(),
                self.side,
                self.x,
                self.y,
                self.px,
                self.py,
                self.radius,
            )
        }
    }
}

/// What the sum of one vector is asked, right or wrong; the block's radius
/// is no part of it.
#[derive(Clone)]
pub struct SumCall {
    pub block: VectorCall,
    pub vx: i32,
    pub vy: i32,
    pub best: u64,
}

impl SumCall {
    pub fn ask(&self) -> Sum {
        let block = &self.block;
        // Safety: as above.
        unsafe {
            parts_sum_motion_vector(
                block.reference.as_ptr(),
                block.reference.len(),
                block.width,
                block.height,
                block.stride,
                block.rows,
                block.target.as_ptr(),
                block.target.len(),
                block.side,
                block.x,
                block.y,
                block.px,
                block.py,
                self.vx,
                self.vy,
                self.best,
            )
        }
    }
}

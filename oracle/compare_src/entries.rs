//! The entries of the static library of the crate `cabunlis`, as `include/cabunlis.h` has them, with the interface's number in their symbols; for the comparison and for the benchmark.
#![allow(dead_code)]

/// What a plane call answers.
#[repr(C)]
#[derive(Clone, Copy, Debug)]
pub struct Answer {
    pub refusal: u32,
    pub macroblock: usize,
    pub done: usize,
    pub next: usize,
    pub bits: u64,
    pub error: u64,
}

/// What a picture call answers.
#[repr(C)]
#[derive(Clone, Copy, Debug)]
pub struct PictureAnswer {
    pub refusal: u32,
    pub macroblock: usize,
    pub done: usize,
    pub planes: [Answer; 3],
}

#[repr(C)]
pub struct Room {
    pub refusal: u32,
    pub bytes: usize,
}

unsafe extern "C" {
    #[link_name = "cabunlis2_encode_inter_plane"]
    pub fn cabunlis_encode_inter_plane(
        width: usize,
        height: usize,
        stride: usize,
        rows: usize,
        source: *const u8,
        source_length: usize,
        reference: *const u8,
        reference_length: usize,
        book: *const u8,
        book_length: usize,
        codebook: *const u8,
        codebook_length: usize,
        lambda: u64,
        radius: u8,
        four: u8,
        margin: u32,
        out: *mut u8,
        out_length: usize,
        start: usize,
        recon: *mut u8,
        recon_length: usize,
        vx: *mut u8,
        vx_length: usize,
        vy: *mut u8,
        vy_length: usize,
    ) -> Answer;

    #[link_name = "cabunlis2_encode_inter_plane_stated"]
    pub fn cabunlis_encode_inter_plane_stated(
        width: usize,
        height: usize,
        stride: usize,
        rows: usize,
        source: *const u8,
        source_length: usize,
        reference: *const u8,
        reference_length: usize,
        book: *const u8,
        book_length: usize,
        codebook: *const u8,
        codebook_length: usize,
        lambda: u64,
        radius: u8,
        four: u8,
        margin: u32,
        out: *mut u8,
        out_length: usize,
        start: usize,
        recon: *mut u8,
        recon_length: usize,
        vx: *mut u8,
        vx_length: usize,
        vy: *mut u8,
        vy_length: usize,
        stated: *mut u32,
        stated_length: usize,
    ) -> Answer;

    #[link_name = "cabunlis2_decode_inter_plane"]
    pub fn cabunlis_decode_inter_plane(
        width: usize,
        height: usize,
        stride: usize,
        rows: usize,
        reference: *const u8,
        reference_length: usize,
        book: *const u8,
        book_length: usize,
        codebook: *const u8,
        codebook_length: usize,
        bytes: *const u8,
        bytes_length: usize,
        start: usize,
        recon: *mut u8,
        recon_length: usize,
        vx: *mut u8,
        vx_length: usize,
        vy: *mut u8,
        vy_length: usize,
    ) -> Answer;

    #[link_name = "cabunlis2_encode_picture"]
    pub fn cabunlis_encode_picture(
        width0: usize,
        height0: usize,
        stride0: usize,
        rows0: usize,
        source0: *const u8,
        source0_length: usize,
        reference0: *const u8,
        reference0_length: usize,
        recon0: *mut u8,
        recon0_length: usize,
        vx0: *mut u8,
        vx0_length: usize,
        vy0: *mut u8,
        vy0_length: usize,
        stated0: *mut u32,
        stated0_length: usize,
        width1: usize,
        height1: usize,
        stride1: usize,
        rows1: usize,
        source1: *const u8,
        source1_length: usize,
        reference1: *const u8,
        reference1_length: usize,
        recon1: *mut u8,
        recon1_length: usize,
        vx1: *mut u8,
        vx1_length: usize,
        vy1: *mut u8,
        vy1_length: usize,
        stated1: *mut u32,
        stated1_length: usize,
        width2: usize,
        height2: usize,
        stride2: usize,
        rows2: usize,
        source2: *const u8,
        source2_length: usize,
        reference2: *const u8,
        reference2_length: usize,
        recon2: *mut u8,
        recon2_length: usize,
        vx2: *mut u8,
        vx2_length: usize,
        vy2: *mut u8,
        vy2_length: usize,
        stated2: *mut u32,
        stated2_length: usize,
        book: *const u8,
        book_length: usize,
        codebook: *const u8,
        codebook_length: usize,
        lambda: u64,
        radius: u8,
        four: u8,
        margin: u32,
        allowance: u64,
        out: *mut u8,
        out_length: usize,
        start: usize,
    ) -> PictureAnswer;

    #[link_name = "cabunlis2_plane_room"]
    pub fn cabunlis_plane_room(width: usize, height: usize) -> Room;
}

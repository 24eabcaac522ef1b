// Shim: the data that the original's build script makes. The names and
// shapes are those the sources use; the values are filled at run time by
// `crate::tables::load`, once in a process.

use crate::tables::{Lent, Vlc};

pub static SVQ1_VLC_MB_MODE: Vlc<4> = Vlc::empty();
pub static SVQ1_VLC_MV_COMPONENT: Vlc<64> = Vlc::empty();
pub static SVQ1_VLC_INTRA_MEAN: Vlc<256> = Vlc::empty();
pub static SVQ1_VLC_INTER_MEAN: Vlc<512> = Vlc::empty();
pub static SVQ1_VLC_INTRA_STAGE_COUNT_L0: Vlc<8> = Vlc::empty();
pub static SVQ1_VLC_INTRA_STAGE_COUNT_L1: Vlc<8> = Vlc::empty();
pub static SVQ1_VLC_INTRA_STAGE_COUNT_L2: Vlc<8> = Vlc::empty();
pub static SVQ1_VLC_INTRA_STAGE_COUNT_L3: Vlc<8> = Vlc::empty();
pub static SVQ1_VLC_INTRA_STAGE_COUNT_L4: Vlc<8> = Vlc::empty();
pub static SVQ1_VLC_INTRA_STAGE_COUNT_L5: Vlc<8> = Vlc::empty();
pub static SVQ1_VLC_INTER_STAGE_COUNT_L0: Vlc<8> = Vlc::empty();
pub static SVQ1_VLC_INTER_STAGE_COUNT_L1: Vlc<8> = Vlc::empty();
pub static SVQ1_VLC_INTER_STAGE_COUNT_L2: Vlc<8> = Vlc::empty();
pub static SVQ1_VLC_INTER_STAGE_COUNT_L3: Vlc<8> = Vlc::empty();
pub static SVQ1_VLC_INTER_STAGE_COUNT_L4: Vlc<8> = Vlc::empty();
pub static SVQ1_VLC_INTER_STAGE_COUNT_L5: Vlc<8> = Vlc::empty();

// The 23,040 codebook bytes of document 01 in the original's three pieces.
pub static SVQ1_BLOCK_SHAPE_LUT: Lent<u8> = Lent::empty();
pub static SVQ1_CODEBOOK_L0L3_BYTES: Lent<i8> = Lent::empty();
pub static SVQ1_CODEBOOK_TAIL_BYTES: Lent<i8> = Lent::empty();

// Never read in the parts that run here.
pub static SVQ1_CODEBOOK_DESCRIPTOR: [u8; 36] = [0; 36];
pub const SVQ1_L4_ABSENCE: Svq1AbsentLevelRecord = Svq1AbsentLevelRecord {
    level: 4,
    block_size: "16x8",
    canonical_vector_len_bytes: 128,
    canonical_6stage_intra_or_inter_bytes: 12288,
};
pub const SVQ1_L5_ABSENCE: Svq1AbsentLevelRecord = Svq1AbsentLevelRecord {
    level: 5,
    block_size: "16x16",
    canonical_vector_len_bytes: 256,
    canonical_6stage_intra_or_inter_bytes: 24576,
};

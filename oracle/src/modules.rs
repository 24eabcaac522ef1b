// The modules that the oracle and the comparison share; each includes this list at its root.

mod answer;
mod book;
mod bytes;
mod cards;
mod differences;
mod fixed;
mod job;
mod make;
mod picture;
mod random;
mod stream;
mod tables;

// Shims for the files that the original leans on and that are missing.
#[allow(dead_code)]
mod bitreader;
#[allow(dead_code)]
mod error;
#[allow(dead_code)]
mod header;
#[allow(dead_code)]
mod svq1_reconstruct;
mod svq1_stage_indices;

// The original, copied at build time.
#[allow(dead_code)]
mod svq1_blocktree;
#[allow(dead_code)]
mod svq1_codebook;
#[allow(dead_code)]
mod svq1_enc;
#[allow(dead_code)]
mod svq1_enc_inter;
#[allow(dead_code)]
mod svq1_enc_leaf;
#[allow(dead_code)]
mod svq1_enc_tree;
#[allow(dead_code)]
mod svq1_mc;
#[allow(dead_code)]
mod svq1_mean;
#[allow(dead_code)]
mod svq1_motion_predictor;
#[allow(dead_code)]
mod svq1_mv_cache;
#[allow(dead_code, unexpected_cfgs)]
mod svq1_plane;
#[allow(dead_code)]
mod svq1_vlc;

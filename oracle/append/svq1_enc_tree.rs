
// ---- added by oracle/append: entry points for the harness ----

/// The recursive plan search at any level and place of a macroblock; it is
/// private to this module.
#[allow(clippy::too_many_arguments)]
pub(crate) fn call_search_block(
    target: &[u8; 256],
    predictor: &[u8; 256],
    x: usize,
    y: usize,
    level: Svq1Level,
    half: Svq1Half,
    allow_skip: bool,
    lambda: u64,
) -> (TreeNode, u32, u64) {
    let view = BlockView {
        target: target.to_vec(),
        predictor: predictor.to_vec(),
    };
    search_block(&view, x, y, level, half, allow_skip, lambda)
}

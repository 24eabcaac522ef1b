
// ---- added by oracle/append: entry points for the harness ----

/// One macroblock as the recording twin saw it.
pub(crate) struct Chosen {
    /// Position in the mode table.
    pub(crate) mode: usize,
    /// Stated bits.
    pub(crate) bits: u32,
    /// Stated squared error.
    pub(crate) error: u64,
    /// Bit at which the macroblock begins.
    pub(crate) start: usize,
    /// Reconstruction, 16 by 16.
    pub(crate) samples: [u8; 256],
    /// Whether the mode that would have been chosen did not fit.
    pub(crate) forced: bool,
}

/// What is left of an allowance of bits (document 02, §5) for the
/// macroblocks to come, those of the planes behind this one among them.
#[derive(Clone, Copy)]
pub(crate) struct Allowance {
    pub(crate) left: u64,
    pub(crate) to_come: u64,
}

impl Allowance {
    /// Whether it still holds a SKIP code for each macroblock behind this
    /// one, after a mode of so many bits.
    fn holds(&self, bits: u32) -> bool {
        let behind = self.to_come - 1;
        u64::from(bits) + u64::from(call_skip_bits()) * behind <= self.left
    }

    fn spend(&mut self, bits: u32) {
        self.left -= u64::from(bits);
        self.to_come -= 1;
    }
}

/// What the recording twin is given beside the writer's own arguments, and
/// what it reports of a plane.
#[derive(Default)]
pub(crate) struct Recorder {
    /// Without one every mode fits.
    pub(crate) allowance: Option<Allowance>,
    /// Whether the first choice for the next macroblock did not fit.
    forced: bool,
    pub(crate) blocks: Vec<Chosen>,
    /// Bits written in all.
    pub(crate) end: usize,
    /// The cache's vectors, row by row.
    pub(crate) vectors: Vec<Svq1Mv>,
}

impl Recorder {
    /// A recorder for a plane inside what is left of an allowance.
    pub(crate) fn within(allowance: Option<Allowance>) -> Self {
        Self {
            allowance,
            ..Self::default()
        }
    }

    /// Drops the modes that do not fit. Those of equal bits fit alike, so
    /// the choice is another one exactly if the least cost with its bits is.
    fn keep_fitting(&mut self, candidates: &mut Vec<MbCandidate>, params: &Svq1InterParams) {
        let Some(allowance) = self.allowance else {
            return;
        };
        let least = |candidates: &[MbCandidate]| {
            let costs = candidates.iter().map(|mode| (mode.cost(params.lambda), mode.bits));
            costs.min().expect("a mode that fits")
        };
        let first = least(candidates);
        candidates.retain(|mode| allowance.holds(mode.bits));
        self.forced = least(candidates) != first;
    }

    fn choose(&mut self, start: usize, winner: &MbCandidate, reference_block: &[u8; 256]) {
        let samples = match &winner.plan {
            Some(plan) => crate::svq1_enc_tree::plan_reconstruction(plan),
            None => *reference_block,
        };
        self.blocks.push(Chosen {
            mode: winner.t03_position,
            bits: winner.bits,
            error: winner.sse,
            start,
            samples,
            forced: self.forced,
        });
        if let Some(allowance) = &mut self.allowance {
            allowance.spend(winner.bits);
        }
    }

    fn finish(&mut self, end: usize, cache: &Svq1MvCache) {
        self.end = end;
        for row in 0..cache.block_rows() {
            for col in 0..cache.block_cols() {
                let vector = cache.get(row as i64, col as i64);
                self.vectors.push(vector.expect("inside the cache"));
            }
        }
    }
}

/// The untouched plane writer, which is private to this module.
pub(crate) fn call_encode_inter_plane(
    w: &mut BitWriter,
    src: &Svq1PlaneRef<'_>,
    reference: &Svq1PlaneCanvas,
    params: &Svq1InterParams,
) -> Result<()> {
    encode_inter_plane(w, src, reference, params)
}

/// The length of a vector difference's code, private to this module.
pub(crate) fn call_mv_component_bits(difference: i32) -> u32 {
    mv_component_bits(difference)
}

/// The length of SKIP's code, private to this module.
pub(crate) fn call_skip_bits() -> u32 {
    mb_mode_bits(T03_POS_SKIP)
}

/// Whether a vector is codable, private to this module.
pub(crate) fn call_mv_is_codable(vector: Svq1Mv, predictor: Svq1Mv) -> bool {
    mv_is_codable(vector, predictor)
}

/// The macroblock at 8×8 row and column moved by a vector, private to this
/// module.
pub(crate) fn call_mc_macroblock(
    reference: &Svq1ReferencePlane<'_>,
    row: usize,
    column: usize,
    vector: Svq1Mv,
) -> [u8; 256] {
    mc_macroblock(reference, row, column, vector)
}

/// The 8×8 block at a sample moved by a vector, private to this module.
pub(crate) fn call_mc_subblock(
    reference: &Svq1ReferencePlane<'_>,
    left: usize,
    top: usize,
    vector: Svq1Mv,
) -> Vec<u8> {
    mc_subblock(reference, left, top, vector)
}

/// The sum of absolute differences, private to this module.
pub(crate) fn call_sad(target: &[u8], candidate: &[u8]) -> u64 {
    sad(target, candidate)
}

//! What was compared, counted. `oracle/compare` adds up equal lines of
//! several runs.

use std::collections::BTreeMap;
use std::fmt;

#[derive(Default)]
pub struct Tally {
    counts: BTreeMap<String, u64>,
}

impl Tally {
    /// Counts one more of `what`.
    pub fn one(&mut self, what: impl Into<String>) {
        *self.counts.entry(what.into()).or_default() += 1;
    }
}

impl fmt::Display for Tally {
    fn fmt(&self, out: &mut fmt::Formatter) -> fmt::Result {
        for (what, count) in &self.counts {
            writeln!(out, "{what}: {count}")?;
        }
        Ok(())
    }
}

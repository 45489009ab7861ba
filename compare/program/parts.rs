//! What is compared, part by part; each part says in its own file how a case is made and what must agree.

use crate::case::Case;
use crate::rng::Rng;
use std::collections::BTreeMap;

/// How many of what were compared.
#[derive(Default)]
pub struct Tally {
    pub answers: u64,
    /// How much of what `--cases` counts.
    pub units: u64,
    pub told: BTreeMap<String, u64>,
}

impl Tally {
    pub fn add(&mut self, what: &str, n: u64) {
        self.answers += n;
        self.note(what, n);
    }
    pub fn unit(&mut self) {
        self.units += 1;
    }
    pub fn note(&mut self, what: &str, n: u64) {
        *self.told.entry(what.into()).or_default() += n;
    }
}

pub type Verdict = Result<(), String>;

pub struct Part {
    pub name: &'static str,
    /// The C functions that it calls.
    pub doors: &'static [&'static str],
    /// The case's own number, and whether it is to be damaged.
    pub make: fn(&mut Rng, u64, bool) -> Case,
    pub compare: fn(&Case, &mut Tally) -> Verdict,
    /// What can be left out of a case, and in which steps.
    pub widths: &'static [(&'static str, usize)],
    /// What `--cases` counts, and how many of them are tried for each 10,000 of `--cases` in a run of all parts.
    pub unit: &'static str,
    pub share: u64,
}

pub const PARTS: &[Part] = &[
    crate::numbers::PART,
    crate::triangle::PLANE,
    crate::triangle::CAPSULE,
    crate::triangle::BULL_CONTACT,
    crate::triangle::SECTION_CONTACT,
    crate::build::PART,
    crate::questions::HEIGHT,
    crate::questions::MAX_BULL,
    crate::questions::MAX_SECTIONS,
    crate::questions::BULL_CHORD,
    crate::questions::SECTIONS_CHORD,
    crate::plan::PART,
    crate::distance::PART,
    crate::halves::PART,
    crate::join::PART,
    crate::copies::PART,
    crate::moves::PART,
    crate::paths::PART,
    crate::job::PART,
    crate::sheet::PART,
    crate::writer::PART,
    crate::stl::PART,
    crate::touched::CONTACTS,
    crate::touched::QUESTIONS,
    crate::um::PART,
    crate::raised::PART,
    crate::checked::PART,
];

/// Equal bits; all NaNs count as one value.
pub fn same(a: f64, b: f64) -> bool {
    a.to_bits() == b.to_bits() || (a.is_nan() && b.is_nan())
}

fn told(what: &str, ours: f64, theirs: f64) -> String {
    format!(
        "{what}: ours {} ({:016x}), the Rust's {} ({:016x})",
        crate::case::shown(ours), ours.to_bits(), crate::case::shown(theirs), theirs.to_bits()
    )
}

pub fn agree(what: &str, ours: f64, theirs: f64) -> Verdict {
    if same(ours, theirs) { Ok(()) } else { Err(told(what, ours, theirs)) }
}

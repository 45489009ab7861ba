//! Joining runs: a list joined once, and joined in parts, beside camlib's own loop.

use crate::case::Case;
use crate::doors::Lent;
use crate::inputs;
use crate::parts::{Part, Tally, Verdict};
use crate::rng::Rng;
use oracle_doc::flat::door;

mod raw {
    unsafe extern "C" {
        pub fn mandrikelo_join(runs: *mut f64, runs_len: usize, count: *mut usize) -> u32;
    }
}

pub const PART: Part = Part {
    name: "join",
    doors: &["join"],
    make,
    compare,
    widths: &[("runs", 5), ("runs", 1)],
    unit: "lists of runs",
    share: 1_000,
};

/// Few places, so that many runs touch; both zeros, and neighbours that do not.
const PLACES: [f64; 8] = [0., -0., 1., 1.0000000000000002, -1., 5e-324, 1e6, 0.1];

fn make(rng: &mut Rng, _: u64, damage: bool) -> Case {
    let many = if rng.one_in(8) { 40 } else { 9 };
    let (n, places) = (rng.below(many), 1 + rng.below(PLACES.len() as u64) as usize);
    let mut runs: Vec<f64> = vec![];
    for _ in 0..n {
        let mut run = [0; 5].map(|_| if rng.one_in(24) { inputs::any(rng) } else { rng.pick(&PLACES[..places]) });
        run.iter_mut().filter(|x| !x.is_finite()).for_each(|x| *x = 1.);
        if let [.., bx, by, z] = runs[..]
            && !rng.one_in(3)
        {
            // It begins where the last one ended, perhaps at the other zero.
            run[0] = if rng.one_in(8) { -bx } else { bx };
            run[1] = by;
            run[4] = z;
        }
        runs.extend(run);
    }
    if damage {
        if rng.one_in(2) {
            runs.extend((0..1 + rng.below(4)).map(|_| 1.));
        }
        if rng.one_in(2) && !runs.is_empty() {
            let k = rng.below(runs.len() as u64) as usize;
            runs[k] = rng.pick(&[f64::NAN, f64::INFINITY, f64::NEG_INFINITY]);
        }
    }
    let parted = rng.below(n + 1) as u32;
    Case::new("join").floats("runs", runs).words("parted", vec![parted])
}

struct Joined {
    refusal: u32,
    count: usize,
    table: Lent<f64>,
}

const GUARD: usize = 0x5a5a_5a5a_5a5a_5a5a;

fn joined(runs: &[f64]) -> Result<Joined, String> {
    let mut table = Lent::new(runs);
    let mut count = [GUARD; 3];
    let refusal = unsafe { raw::mandrikelo_join(table.at(), table.len(), &mut count[1]) };
    if !table.intact() || count[0] != GUARD || count[2] != GUARD {
        return Err("join: a guard word was changed".into());
    }
    Ok(Joined { refusal, count: count[1], table })
}

/// The joined runs alone.
fn handed_on(runs: &[f64]) -> Result<Vec<f64>, String> {
    let j = joined(runs)?;
    if j.refusal != 0 {
        return Err(format!("join: refusal {} of a list that was joined in part", j.refusal));
    }
    Ok(j.table.get()[..j.count * 5].to_vec())
}

fn same(a: &[f64], b: &[f64]) -> bool {
    a.len() == b.len() && a.iter().zip(b).all(|(x, y)| x.to_bits() == y.to_bits())
}

/// First part joined, rest added, joined again.
fn in_parts(runs: &[f64], n: usize, join: impl Fn(&[f64]) -> Result<Vec<f64>, String>) -> Result<Vec<f64>, String> {
    let mut list = join(&runs[..n * 5])?;
    list.extend(&runs[n * 5..]);
    join(&list)
}

fn compare(case: &Case, tally: &mut Tally) -> Verdict {
    let runs = case.f("runs");
    let ours = joined(runs)?;
    tally.unit();
    let refusal = match () {
        _ if runs.len() % 5 != 0 => 1,
        _ if runs.iter().any(|x| !x.is_finite()) => 2,
        _ => 0,
    };
    if ours.refusal != refusal {
        return Err(format!("join: refusal {} where the request has {refusal}", ours.refusal));
    }
    if refusal != 0 {
        tally.add("refused", 1);
        if ours.count != 0 || !ours.table.holds(runs) {
            return Err(format!("join: refusal {refusal} changed the table or counts {}", ours.count));
        }
        return Ok(());
    }
    let theirs = door::join(runs);
    let mut left = theirs.clone();
    left.resize(runs.len(), 0.);
    if ours.count * 5 != theirs.len() || !ours.table.holds(&left) {
        return Err(format!("join: ours {} runs {:?}, the Rust's {left:?}", ours.count, ours.table.get()));
    }
    tally.add("joined", 1);
    tally.note(if theirs.len() < runs.len() { "with runs that touch" } else { "with none" }, 1);
    let n = runs.len() / 5;
    let all: Vec<usize> = if n <= 8 { (0..=n).collect() } else { vec![0, (case.u("parted")[0] as usize).min(n), n] };
    let rust = |list: &[f64]| Ok(door::join(list));
    for parted in all {
        tally.add("partings", 1);
        for (whose, list) in [("ours", in_parts(runs, parted, handed_on)?), ("the Rust's", in_parts(runs, parted, rust)?)] {
            if !same(&list, &theirs) {
                return Err(format!("join: parted at {parted}, {whose} {list:?}, at once {theirs:?}"));
            }
        }
    }
    Ok(())
}

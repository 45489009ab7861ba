//! Document 01's numbers, pair by pair.

use crate::case::Case;
use crate::doors::raw;
use crate::inputs;
use crate::parts::{Part, Tally, Verdict, agree};
use crate::rng::Rng;
use oracle_doc::numbers::Numbers;

pub const PART: Part = Part {
    name: "numbers",
    doors: &[
        "root", "round_down", "round_up", "max", "min", "clamp_unit", "hypot", "total_less",
    ],
    make: make_numbers,
    compare: compare_numbers,
    widths: &[("pairs", 2)],
    unit: "pairs of numbers",
    share: 10_000,
};

fn make_numbers(rng: &mut Rng, case: u64, _: bool) -> Case {
    let fixed = inputs::fixed();
    let first = (case * 1024) as usize;
    let pairs = (first..first + 1024).flat_map(|i| {
        let x = if i < fixed.len() { fixed[i] } else { inputs::any(rng) };
        let y = match rng.below(4) {
            0 => x,
            1 => -x,
            2 => inputs::neighbour(rng, x),
            _ => inputs::any(rng),
        };
        [x, y]
    });
    Case::new("numbers").floats("pairs", pairs.collect())
}

fn compare_numbers(case: &Case, tally: &mut Tally) -> Verdict {
    for pair in case.f("pairs").chunks_exact(2) {
        let (x, y) = (pair[0], pair[1]);
        unsafe {
            agree("root", raw::mandrikelo_root(x), x.sqrt())?;
            agree("round down", raw::mandrikelo_round_down(x), x.floor())?;
            agree("round up", raw::mandrikelo_round_up(x), x.ceil())?;
            agree("max", raw::mandrikelo_max(x, y), x.max_of(y))?;
            agree("min", raw::mandrikelo_min(x, y), x.min_of(y))?;
            agree("clamp", raw::mandrikelo_clamp_unit(x), x.clamp(0., 1.))?;
            agree("hypot", raw::mandrikelo_hypot(x, y), x.hypot_of(y))?;
            tally.add("answers", 7);
            // All NaNs count as one value, so a NaN has no place of its own in the order.
            if !x.is_nan() && !y.is_nan() {
                let (ours, theirs) = (raw::mandrikelo_total_less(x, y), x.total_cmp(&y).is_lt());
                if ours != theirs {
                    return Err(format!("total order: ours {ours}, the Rust's {theirs}"));
                }
                tally.add("answers", 1);
            }
        }
        tally.unit();
    }
    Ok(())
}

//! hypot beside the oracle's, which squares in 256 bits, on pairs that come near to what can go wrong; and the root of each number beside Rust's.

use crate::case::Case;
use crate::inputs;
use crate::parts::{Part, Tally, Verdict, agree};
use crate::rng::Rng;
use oracle_doc::hypot::{exact_hypot, squares_first};

mod raw {
    unsafe extern "C" {
        pub fn mandrikelo_root(x: f64) -> f64;
        pub fn mandrikelo_hypot(x: f64, y: f64) -> f64;
    }
}

pub const PART: Part = Part {
    name: "distance",
    doors: &["root", "hypot"],
    make,
    compare,
    widths: &[("pairs", 2)],
    unit: "pairs of numbers",
    share: 10_000,
};

const FRACTION: u64 = 0xf_ffff_ffff_ffff;

/// A normal number with that exponent's field.
fn with(rng: &mut Rng, field: u64) -> f64 {
    f64::from_bits(field << 52 | rng.bits() & FRACTION)
}

fn two(e: i32) -> f64 {
    f64::from_bits(((e + 1023) as u64) << 52)
}

/// A triple's two shorter sides, times 1 or 3; where they are f64s, their root is exact, and midway between two f64s if it has 54 digits and is odd.
fn triple(rng: &mut Rng, most: u64) -> (f64, f64) {
    let a = 2 + rng.below(most);
    let b = 1 + rng.below(a - 1);
    let times = if rng.one_in(2) { 3 } else { 1 };
    ((times * (a * a - b * b)) as f64, (times * 2 * a * b) as f64)
}

/// m * 2^k and an n for which n * n / 4^k lies next to (2 * j + 1) * m, so that the root lies next to a middle.
fn near_middle(rng: &mut Rng) -> (f64, f64) {
    let (k, m) = (10 + rng.below(17) as i32, (1u64 << 52) + (rng.bits() & FRACTION));
    let digits = rng.below(12);
    let j = rng.below(1 << digits) as f64;
    let n = (((2. * j + 1.) * m as f64 + (j + 0.5) * (j + 0.5)).sqrt() * two(k)).round();
    (m as f64 * two(k), n + rng.below(3) as f64 - 1.)
}

fn pair(rng: &mut Rng) -> (f64, f64) {
    let apart = rng.below(61);
    match rng.below(12) {
        0 => (inputs::any(rng), inputs::any(rng)),
        1 => (f64::from_bits(rng.bits()), f64::from_bits(rng.bits())),
        2 => {
            let field = 61 + rng.below(1986);
            (with(rng, field), with(rng, field - apart))
        }
        3 => triple(rng, 1 << 26),
        4 => {
            let (x, y) = triple(rng, 113_000_000);
            (inputs::neighbour(rng, x), if rng.one_in(2) { y } else { inputs::neighbour(rng, y) })
        }
        5 => triple(rng, 113_000_000),
        6 => near_middle(rng),
        7 => (f64::from_bits(rng.bits() >> (11 + rng.below(52))), f64::from_bits(rng.bits() >> (11 + rng.below(52)))),
        8 => {
            let field = 2040 + rng.below(7);
            (with(rng, field), with(rng, field - apart / 2))
        }
        9 => {
            // the threshold of the range, and its neighbours
            let (x, y) = (6081690782099583.0 * two(970), 16956756496728720.0 * two(970));
            (f64::from_bits(x.to_bits() + rng.below(9) - 4), f64::from_bits(y.to_bits() + rng.below(3) - 1))
        }
        10 => {
            // the root crosses a power of two, or nearly so
            let x = f64::from_bits(0x4000_0000_0000_0000 - 1 - rng.below(1 << (apart / 2)));
            (x, with(rng, 1023 - apart / 2))
        }
        _ => (rng.between(-1000., 1000.), (rng.below(20_001) as f64 - 10_000.) / 10.),
    }
}

fn make(rng: &mut Rng, _: u64, _: bool) -> Case {
    let pairs = (0..1024).flat_map(|_| {
        let (x, y) = pair(rng);
        if rng.one_in(2) { [-y, x] } else { [x, y] }
    });
    Case::new("distance").floats("pairs", pairs.collect())
}

fn compare(case: &Case, tally: &mut Tally) -> Verdict {
    for pair in case.f("pairs").chunks_exact(2) {
        let (x, y) = (pair[0], pair[1]);
        let exact = exact_hypot(x, y);
        unsafe {
            agree("hypot", raw::mandrikelo_hypot(x, y), exact)?;
            agree("root", raw::mandrikelo_root(x), x.sqrt())?;
        }
        tally.add("answers", 2);
        if !exact.is_nan() {
            tally.note("moved from squares first", (squares_first(x, y) != exact) as u64);
            tally.note("moved from libm", (x.hypot(y) != exact) as u64);
        }
        tally.unit();
    }
    Ok(())
}

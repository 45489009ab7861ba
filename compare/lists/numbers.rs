// Writes crates/replay_numbers/stdin: a fixed list of what Rust answers for the numbers of document 01, one question a line:
// a letter, x, y and the answer, each number as the 16 hex digits of its bits. y is 0 where there is one operand; every NaN is 7ff8000000000000.
// compare/lists/make runs it.
// r root, d rounding down, u rounding up, a abs, c clamp to 0..1, m max, n min, h hypot, t total order (the answer is 1 or 0).
use std::cmp::Ordering;

fn bits(x: f64) -> u64 {
    if x.is_nan() { 0x7ff8_0000_0000_0000 } else { x.to_bits() }
}

fn line(what: char, x: f64, y: f64, answer: u64) {
    println!("{} {:016x} {:016x} {:016x}", what, bits(x), bits(y), answer);
}

// document 01's own rules, where Rust leaves the result open
fn max(x: f64, y: f64) -> f64 {
    if x.is_nan() || x < y { y } else { x }
}

fn min(x: f64, y: f64) -> f64 {
    if x.is_nan() || y < x { y } else { x }
}

fn clamp(t: f64) -> f64 {
    if t < 0.0 { 0.0 } else if t > 1.0 { 1.0 } else { t }
}

// request 6's hypot, in its own whole numbers
#[path = "../oracle-parts/hypot.rs"]
mod exact;
use exact::exact_hypot as hypot;

fn main() {
    let mut state = 0x9e37_79b9_7f4a_7c15u64;
    let mut random = || {
        state ^= state << 13;
        state ^= state >> 7;
        state ^= state << 17;
        f64::from_bits(state)
    };
    let specials = [0.0, -0.0, f64::INFINITY, f64::NEG_INFINITY, f64::NAN];
    // exponents' first and last values
    let mut edges = vec![];
    for e in [0u64, 1, 2, 511, 1022, 1023, 1024, 1074, 1075, 1076, 2046] {
        edges.push(f64::from_bits((e << 52) + (e == 0) as u64));
        edges.push(f64::from_bits((e << 52) + 0xf_ffff_ffff_ffff));
    }
    // a subnormal of each length
    let lengths: Vec<f64> = (0..52).map(|k| f64::from_bits((1u64 << k) + (1u64 << k) / 3)).collect();
    // squares and their neighbours
    let mut squares = vec![];
    for n in [3.0f64, 5.0, 7.0, 1023.0, 94906265.0, 67108863.0, 1e-150, 0.1, 1.0e77] {
        let s = n * n;
        squares.extend([f64::from_bits(s.to_bits() - 1), s, f64::from_bits(s.to_bits() + 1)]);
    }
    // halves and whole numbers, small and around 2^52 and 2^53
    let mut halves = vec![];
    for n in [0.5f64, 1.0, 1.5, 2.0, 2.5, 255.5, 4503599627370495.0, 4503599627370495.5, 4503599627370496.0, 4503599627370497.0, 9007199254740991.0, 9007199254740992.0, 9007199254740994.0] {
        halves.extend([f64::from_bits(n.to_bits() - 1), n, f64::from_bits(n.to_bits() + 1)]);
    }
    for &x in specials.iter().chain(&[-1.0, -4.0, f64::MIN, -f64::MIN_POSITIVE, f64::from_bits(1 << 63 | 1)]).chain(&edges).chain(&lengths).chain(&squares) {
        line('r', x, 0.0, bits(x.sqrt()));
    }
    for _ in 0..40 {
        let x = random().abs();
        line('r', x, 0.0, bits(x.sqrt()));
    }
    for &x in specials.iter().chain(&halves).chain(&edges) {
        for x in [x, -x] {
            line('d', x, 0.0, bits(x.floor()));
            line('u', x, 0.0, bits(x.ceil()));
        }
    }
    for _ in 0..20 {
        let x = random() % 4096.0;
        line('d', x, 0.0, bits(x.floor()));
        line('u', x, 0.0, bits(x.ceil()));
    }
    for &x in specials.iter().chain(&edges) {
        line('a', x, 0.0, bits(x.abs()));
        line('a', -x, 0.0, bits((-x).abs()));
    }
    for &x in specials.iter().chain(&[5e-324, -5e-324, 0.5, 1.0, 0.9999999999999999, 1.0000000000000002, -1.0, 2.0, 1e300, -1e300]) {
        line('c', x, 0.0, bits(clamp(x)));
    }
    let some = [0.0, -0.0, f64::INFINITY, f64::NEG_INFINITY, f64::NAN, 5e-324, 3.0, -4.0, 1e200];
    for x in some {
        for y in some {
            line('m', x, y, bits(max(x, y)));
            line('n', x, y, bits(min(x, y)));
            line('h', x, y, bits(hypot(x, y)));
            line('t', x, y, (x.total_cmp(&y) == Ordering::Less) as u64);
        }
    }
    for _ in 0..10 {
        let (x, y) = (random(), random());
        line('m', x, y, bits(max(x, y)));
        line('n', x, y, bits(min(x, y)));
        let (p, q) = (x % 1e6, y % 1e6);
        line('h', p, q, bits(hypot(p, q)));
        line('t', x, y, (x.total_cmp(&y) == Ordering::Less) as u64);
    }
    distances(&mut random);
}

// hypot where squares vanish or overflow, at ties, at the threshold of the range, near middles, across a power of two, with exponents apart, and among subnormals
fn distances(random: &mut dyn FnMut() -> f64) {
    let two = |e: i32| 2f64.powi(e);
    let mut pairs = vec![(3e-200, 4e-200), (1e200, 1e200), (1e-200, 0.0), (5404319552844597.0, 7205759403792796.0), (3.0, 4.0), (5e-324, 5e-324), (f64::MAX, f64::MAX)];
    for x in [6081690782099581.0, 6081690782099583.0, 6081690782099585.0] {
        pairs.push((x * two(970), 16956756496728720.0 * two(970)));
    }
    // ties: triples with an odd hypotenuse of 54 digits, and of three times one
    for (a, b) in [(94906267.0f64, 2.0f64), (80000001.0, 60000000.0), (94906265.0, 3000002.0), (70710679.0, 70710678.0)] {
        for times in [1.0, 3.0] {
            let (x, y) = ((a * a - b * b) * times, 2.0 * a * b * times);
            pairs.extend([(x, y), (x, f64::from_bits(y.to_bits() + 1)), (f64::from_bits(x.to_bits() - 1), y)]);
        }
    }
    // near middles: n * n / 4^k lies next to (2 * j + 1) * m
    for k in 13..27 {
        for j in [0.0, 1.0, 2.0, 9.0, 100.0] {
            let m = 4503599627370497.0 + (k as f64) * 7e13;
            let n = (((2.0 * j + 1.0) * m).sqrt() * two(k)).round();
            pairs.extend([(m * two(k), n), (m * two(k), n - 1.0), (m * two(k), n + 1.0)]);
        }
    }
    for k in 0..61 {
        let (x, y) = (f64::from_bits(random().to_bits() & 0xf_ffff_ffff_ffff | 0x3ff0_0000_0000_0000), f64::from_bits(random().to_bits() & 0xf_ffff_ffff_ffff | 0x3ff0_0000_0000_0000));
        pairs.extend([(x, y * two(-k)), (2.0 - two(-52), y * two(-k)), (x * two(1023), y * two(1023 - k)), (x * two(-1022), y * two(-1022) * two(-k))]);
    }
    for _ in 0..20 {
        pairs.push((f64::from_bits(random().to_bits() >> 12), f64::from_bits(random().to_bits() >> 13)));
    }
    for (x, y) in pairs {
        line('h', x, y, bits(hypot(x, y)));
        line('h', -y, x, bits(hypot(y, x)));
    }
}

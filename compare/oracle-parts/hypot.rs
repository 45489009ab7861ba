/// hypot by document 02's request 6: the f64 nearest to the exact root of x*x + y*y, ties to even, plus infinity past the range and beside an infinity.
/// libm's value is where the search begins; exact squares in 256 bits decide, so what comes out does not depend on it.
pub fn exact_hypot(x: f64, y: f64) -> f64 {
    if x.is_infinite() || y.is_infinite() {
        return f64::INFINITY;
    }
    if x.is_nan() || y.is_nan() {
        return f64::NAN;
    }
    let (a, b) = if x.abs() < y.abs() { (y.abs(), x.abs()) } else { (x.abs(), y.abs()) };
    let ((m, p), (n, q)) = (taken_apart(a.to_bits()), taken_apart(b.to_bits()));
    if n == 0 || p - q > 40 {
        return a;
    }
    // 16 times the sum of the squares, in squares of 2^q smallest f64s
    let sum = added(square((m as u128) << (p - q + 2)), square((n as u128) << 2));
    // twice the middle between the f64s of two neighbouring patterns, squared, in the same unit; past the range the patterns go on
    let middle = |bits: u64| {
        let ((s, i), (t, j)) = (taken_apart(bits), taken_apart(bits + 1));
        square(((s as u128) << (i + 1 - q)) + ((t as u128) << (j + 1 - q)))
    };
    let mut bits = a.hypot(b).to_bits().max(a.to_bits());
    while bits > a.to_bits() && (sum < middle(bits - 1) || sum == middle(bits - 1) && bits % 2 == 1) {
        bits -= 1;
    }
    while bits < f64::INFINITY.to_bits() && (sum > middle(bits) || sum == middle(bits) && bits % 2 == 1) {
        bits += 1;
    }
    f64::from_bits(bits)
}

/// A pattern's significand and place: it stands for significand * 2^place smallest f64s.
fn taken_apart(bits: u64) -> (u64, u32) {
    let (field, fraction) = ((bits >> 52) as u32, bits & 0xf_ffff_ffff_ffff);
    if field == 0 { (fraction, 0) } else { (fraction + (1 << 52), field - 1) }
}

/// n * n as its upper and lower 128 binary digits.
fn square(n: u128) -> (u128, u128) {
    let (h, l) = (n >> 64, n & u64::MAX as u128);
    let cross = h * l;
    added((h * h + (cross >> 63), (cross << 65)), (0, l * l))
}

fn added(a: (u128, u128), b: (u128, u128)) -> (u128, u128) {
    let (low, carry) = a.1.overflowing_add(b.1);
    (a.0 + b.0 + carry as u128, low)
}

/// Document 01's rule, before request 6: the squares first. Kept to count where answers moved.
pub fn squares_first(x: f64, y: f64) -> f64 {
    if x.is_infinite() || y.is_infinite() { f64::INFINITY } else { (x * x + y * y).sqrt() }
}

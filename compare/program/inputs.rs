//! The families of inputs: numbers, triangles, meshes, tools, questions and plans.

use crate::rng::Rng;

/// Numbers whose neighbourhood is worth a look.
pub const MARKED: [f64; 20] = [
    0., -0., 1., -1., 0.5, -0.5, 2., 9., 1e6, -1e6, 3e6, -3e6, 1e-6, 1e-12, -1e-12, 1e-300, 5e-324, -5e-324, 2.2250738585072014e-308,
    1e9,
];

/// Any f64 at all.
pub fn any(rng: &mut Rng) -> f64 {
    match rng.below(10) {
        0 => rng.pick(&MARKED),
        1 => rng.pick(&[f64::NAN, f64::INFINITY, f64::NEG_INFINITY, f64::MAX, f64::MIN, f64::MIN_POSITIVE]),
        2 => {
            let x = rng.pick(&MARKED);
            neighbour(rng, x)
        }
        3 => rng.between(-100., 100.),
        4 => (rng.below(4097) as f64 - 2048.) / 2.,
        // A square and its neighbours.
        5 => {
            let s = f64::from_bits(rng.bits() >> 26 << 26 & 0x4fff_ffff_ffff_ffff);
            neighbour(rng, s * s)
        }
        // Whole and half numbers where the fraction's last digits end.
        6 => {
            let p = rng.pick(&[51, 52, 53]);
            let x = (1u64 << p) as f64 + (rng.below(65) as f64 - 32.) / 2.;
            if rng.one_in(2) { -x } else { x }
        }
        // A subnormal of any length.
        7 => f64::from_bits(rng.bits() >> (12 + rng.below(52)) | rng.below(2) << 63),
        // An exponent's first and last values.
        8 => {
            let x = f64::from_bits(rng.below(0x1000) << 52);
            neighbour(rng, x)
        }
        _ => f64::from_bits(rng.bits()),
    }
}

/// The number, or one up to two steps of its bits away.
pub fn neighbour(rng: &mut Rng, x: f64) -> f64 {
    let step = rng.below(5) as i64 - 2;
    f64::from_bits((x.to_bits() as i64).wrapping_add(step) as u64)
}

/// Every exponent's first and last values, all subnormal lengths and the marked numbers with their neighbours: the numbers that a
/// run always tries.
pub fn fixed() -> &'static [f64] {
    static FIXED: std::sync::OnceLock<Vec<f64>> = std::sync::OnceLock::new();
    FIXED.get_or_init(all_fixed)
}

fn all_fixed() -> Vec<f64> {
    let mut out = vec![f64::NAN, f64::INFINITY, f64::NEG_INFINITY];
    for exponent in 0..=0x7feu64 {
        for fraction in [0, 1, 0xf_ffff_ffff_fffe, 0xf_ffff_ffff_ffff] {
            out.push(f64::from_bits(exponent << 52 | fraction));
        }
    }
    for digits in 0..52 {
        out.extend([1u64 << digits, (1 << digits) + 1, (2 << digits) - 1].map(f64::from_bits));
    }
    for x in MARKED.iter().copied().chain((0..200).map(|k| k as f64 / 2.)).chain((0..64).map(|k| (1u64 << 52) as f64 + k as f64 - 32.)) {
        out.extend([x, x * x].iter().flat_map(|y| [-1i64, 0, 1].map(|s| f64::from_bits((y.to_bits() as i64).wrapping_add(s) as u64))));
    }
    let turned: Vec<f64> = out.iter().map(|x| -x).collect();
    out.extend(turned);
    out
}

/// How the coordinates of a case are drawn.
#[derive(Clone, Copy, Debug, PartialEq)]
pub enum Family {
    /// Uniform in a part's usual size.
    Ordinary,
    /// Halves, so that things touch in exactly representable points.
    Halves,
    /// Zeros of both signs and a few small numbers.
    Zeros,
    /// Close to each other, far from the origin.
    Far,
    /// Ends of the ranges and very small numbers.
    Extreme,
    /// All magnitudes.
    Logarithmic,
}

pub fn family(rng: &mut Rng) -> Family {
    rng.pick(&[
        Family::Ordinary, Family::Ordinary, Family::Ordinary, Family::Halves, Family::Halves, Family::Zeros, Family::Far,
        Family::Extreme, Family::Logarithmic,
    ])
}

/// A coordinate: finite, of magnitude at most 1e6.
pub fn coordinate(rng: &mut Rng, f: Family) -> f64 {
    match f {
        Family::Ordinary => rng.between(-10., 10.),
        Family::Halves => (rng.below(25) as f64 - 8.) / 2.,
        Family::Zeros => rng.pick(&[0., -0., 0., -0., 1., -1., 0.5, 2.]),
        Family::Far => 999_990. + rng.between(0., 10.),
        Family::Extreme => rng.pick(&[
            1e6, -1e6, 0., -0., 999_999.999_999_999_9, 5e-324, -5e-324, 1e-300, -1e-300, 1e-160, -1e-160, 1e-6, 1e-12, 1., -1., 1e3,
        ]),
        Family::Logarithmic => {
            let x = 10f64.powf(rng.between(-20., 6.));
            if rng.one_in(2) { -x } else { x }
        }
    }
}

/// A radius, 0 to 1e6.
pub fn radius(rng: &mut Rng, f: Family) -> f64 {
    match rng.below(8) {
        0 => 0.,
        1 => rng.pick(&[0.5, 1., 1.5, 2., 5.]),
        2 => rng.pick(&[0., -0., 5e-324, 1e-160, 1e-12, 1e6, 1e5]),
        3 => coordinate(rng, f).abs(),
        _ => rng.between(0.01, 5.),
    }
}

/// Nine numbers: ordinary, degenerate, vertical, needle and flat triangles.
pub fn triangle(rng: &mut Rng, f: Family) -> [f64; 9] {
    let mut t = [0.; 9];
    for v in &mut t {
        *v = coordinate(rng, f);
    }
    match rng.below(14) {
        // Two corners or all three the same.
        0 => t.copy_within(0..3, 3),
        1 => {
            t.copy_within(0..3, 3);
            t.copy_within(0..3, 6);
        }
        // Upright: the third corner over the edge's line.
        2 => {
            let s = rng.pick(&[0., 0.5, 1., 2., -1.]);
            for k in 0..2 {
                t[6 + k] = t[k] + s * (t[3 + k] - t[k]);
            }
        }
        // Upright along an axis.
        3 => {
            let k = rng.below(2) as usize;
            t[3 + k] = t[k];
            t[6 + k] = t[k];
        }
        // A needle.
        4 => {
            for k in 0..3 {
                t[6 + k] = (t[3 + k] + rng.between(-1e-9, 1e-9)).clamp(-1e6, 1e6);
            }
        }
        // Flat, also but for a zero's sign.
        5 | 6 | 7 => {
            t[5] = t[2];
            t[8] = if t[2] == 0. && rng.one_in(2) { -t[2] } else { t[2] };
        }
        // All but flat.
        8 => {
            t[5] = neighbour(rng, t[2]).clamp(-1e6, 1e6);
            t[8] = t[2];
        }
        _ => {}
    }
    t
}

/// A point near a triangle: on a corner, on an edge, within a radius or anywhere.
pub fn point_near(rng: &mut Rng, f: Family, t: &[f64], r: f64) -> [f64; 2] {
    let k = 3 * rng.below(3) as usize;
    let j = (k + 3) % 9;
    let held = |v: f64| v.clamp(-3e6, 3e6);
    match rng.below(8) {
        0 => [t[k], t[k + 1]],
        1 => {
            let u = rng.unit();
            let s = rng.pick(&[0.5, 0.25, u]);
            [t[k] + s * (t[j] - t[k]), t[k + 1] + s * (t[j + 1] - t[k + 1])]
        }
        // A corner exactly on the rim.
        2 => [held(t[k] + r), t[k + 1]],
        3 => [t[k], held(t[k + 1] - r)],
        4 => {
            let a = rng.between(0., 6.283);
            [held(t[k] + r * a.cos()), held(t[k + 1] + r * a.sin())]
        }
        5 => {
            let (u, v) = (rng.unit(), rng.unit());
            [held(t[0] + u * (t[3] - t[0]) + v * (t[6] - t[0])), held(t[1] + u * (t[4] - t[1]) + v * (t[7] - t[1]))]
        }
        6 => [held(3. * coordinate(rng, f)), held(3. * coordinate(rng, f))],
        _ => [coordinate(rng, f), coordinate(rng, f)],
    }
}

/// A mesh of one of the shapes that shops meet, and some that they do not.
pub fn mesh(rng: &mut Rng, most: usize) -> Vec<f64> {
    let mut m = shape(rng, most);
    if rng.one_in(2) {
        shuffle(rng, &mut m);
    }
    m
}

/// The triangles in another order.
fn shuffle(rng: &mut Rng, m: &mut [f64]) {
    for i in (1..m.len() / 9).rev() {
        let j = rng.below(i as u64 + 1) as usize;
        for k in 0..9 {
            m.swap(9 * i + k, 9 * j + k);
        }
    }
}

fn shape(rng: &mut Rng, most: usize) -> Vec<f64> {
    let f = family(rng);
    let some = |rng: &mut Rng| 1 + rng.below(most as u64) as usize;
    match rng.below(13) {
        0 => triangle(rng, f).to_vec(),
        1 | 2 => soup(rng, f, most),
        3 | 4 | 5 => plate(rng, most),
        6 => walls(rng, most),
        7 => grid(rng, most),
        // Copies of one triangle, also of a single point.
        8 => triangle(rng, f).repeat(some(rng).min(40)),
        // On a line.
        9 => {
            let mut m = soup(rng, f, most);
            let k = rng.below(2) as usize;
            let at = coordinate(rng, f);
            m.chunks_exact_mut(3).for_each(|v| v[k] = at);
            m
        }
        // Small and large triangles together.
        10 => {
            let mut m = soup(rng, Family::Ordinary, most);
            m.chunks_exact_mut(9).step_by(3).for_each(|t| t.iter_mut().for_each(|v| *v *= 0.01));
            m
        }
        // Corners on the unit circle, inside or outside by a rounding, beside a face at their height, with a higher end out of reach.
        11 => rim(rng, most),
        _ => soup(rng, Family::Ordinary, most),
    }
}

fn rim(rng: &mut Rng, most: usize) -> Vec<f64> {
    let top = rng.pick(&[0.3, 1.2345, 0.7, 1.]);
    let mut out = vec![];
    for _ in 0..1 + rng.below(most as u64) {
        let a = rng.between(0., 6.283);
        let b = rng.between(0., 6.283);
        let near = rng.between(0., 0.9);
        let out_by = 1. + f64::EPSILON * rng.below(3) as f64;
        out.extend([near * b.cos(), near * b.sin(), rng.between(-2., top), out_by * a.cos(), out_by * a.sin(), top]);
        let c = a + rng.between(-0.5, 0.5);
        out.extend([3. * c.cos(), 3. * c.sin(), top + rng.between(0., 0.2)]);
    }
    let face = [-0.5, -0.5, top, 0.5, -0.5, top, 0., 0.5, top];
    if rng.one_in(4) { out.extend(face) } else { out.splice(0..0, face).for_each(drop) }
    out
}

fn soup(rng: &mut Rng, f: Family, most: usize) -> Vec<f64> {
    let n = 1 + rng.below(most as u64) as usize;
    (0..n).flat_map(|_| triangle(rng, f)).collect()
}

/// Two triangles for a rectangle at height z.
fn rectangle(out: &mut Vec<f64>, x0: f64, y0: f64, x1: f64, y1: f64, z: f64) {
    out.extend([x0, y0, z, x1, y0, z, x1, y1, z]);
    out.extend([x0, y0, z, x1, y1, z, x0, y1, z]);
}

fn wall(out: &mut Vec<f64>, a: [f64; 2], b: [f64; 2], z0: f64, z1: f64) {
    out.extend([a[0], a[1], z0, b[0], b[1], z0, b[0], b[1], z1]);
    out.extend([a[0], a[1], z0, b[0], b[1], z1, a[0], a[1], z1]);
}

/// Four walls and a top.
fn boss(out: &mut Vec<f64>, x0: f64, y0: f64, x1: f64, y1: f64, z0: f64, z1: f64) {
    wall(out, [x0, y0], [x1, y0], z0, z1);
    wall(out, [x1, y0], [x1, y1], z0, z1);
    wall(out, [x1, y1], [x0, y1], z0, z1);
    wall(out, [x0, y1], [x0, y0], z0, z1);
    rectangle(out, x0, y0, x1, y1, z1);
}

/// A plate of squares with bosses and pockets on it.
pub fn plate(rng: &mut Rng, most: usize) -> Vec<f64> {
    let side = 1 + rng.below(((most / 4).max(1) as f64).sqrt() as u64 + 1);
    let pitch = rng.pick(&[1., 2., 0.5, 2.5, 10. / 3.]);
    let (x, y) = (rng.pick(&[0., -0., -3., 7.5]), rng.pick(&[0., -0., 4., -2.25]));
    let z = rng.pick(&[0.5, 1., 2., 0., -0., 1.2345, 0.1, 0.3]);
    let mut out = vec![];
    for i in 0..side {
        for j in 0..side {
            if rng.one_in(9) {
                continue;
            }
            let (x0, y0) = (x + i as f64 * pitch, y + j as f64 * pitch);
            rectangle(&mut out, x0, y0, x0 + pitch, y0 + pitch, z);
        }
    }
    for _ in 0..rng.below(3) {
        let size = side as f64 * pitch;
        let (x0, y0) = (x + rng.between(0., size), y + rng.between(0., size));
        let to = z + rng.pick(&[1., 0.25, 1e-3, 2e-3, 0.1, -0.5, 0.05, 0.02, 5e-3, 0.0625, -0.0625, 0.2]);
        boss(&mut out, x0, y0, x0 + size / 5., y0 + size / 4., z, to);
    }
    // Ribs, also such as a level's tolerance takes for flat and a run's does not.
    for _ in 0..rng.pick(&[0, 0, 1, 2]) {
        let size = side as f64 * pitch;
        let a = [x + rng.between(0., size), y + rng.between(0., size)];
        let b = if rng.one_in(2) { [a[0], a[1] + size / 6.] } else { [a[0] + rng.between(-1., 1.), a[1] + rng.between(-1., 1.)] };
        wall(&mut out, a, b, z, z + rng.pick(&[0.05, 0.02, 5e-3, 1e-3, 1e-4, 0.3]));
    }
    if out.is_empty() {
        rectangle(&mut out, x, y, x + pitch, y + pitch, z);
    }
    out
}

fn walls(rng: &mut Rng, most: usize) -> Vec<f64> {
    let mut out = vec![];
    for _ in 0..1 + rng.below((most / 2).max(1) as u64) {
        let a = [coordinate(rng, Family::Halves), coordinate(rng, Family::Halves)];
        let b = if rng.one_in(2) { [a[0], a[1] + 2.] } else { [coordinate(rng, Family::Ordinary), a[1]] };
        wall(&mut out, a, b, 0., rng.pick(&[1., 2., 3.5]));
    }
    out
}

/// Touching triangles of whole coordinates at heights of their own.
fn grid(rng: &mut Rng, most: usize) -> Vec<f64> {
    let side = 1 + rng.below(((most / 2).max(1) as f64).sqrt() as u64 + 1) as usize;
    let z: Vec<f64> = (0..(side + 1) * (side + 1)).map(|_| (rng.below(9) as f64 - 2.) / 2.).collect();
    let mut out = vec![];
    for i in 0..side {
        for j in 0..side {
            let v = |i: usize, j: usize| [i as f64, j as f64, z[i * (side + 1) + j]];
            out.extend([v(i, j), v(i + 1, j), v(i + 1, j + 1)].concat());
            out.extend([v(i, j), v(i + 1, j + 1), v(i, j + 1)].concat());
        }
    }
    out
}

/// 65,536 triangles (or as many less as `short` says) on a plate.
pub fn largest(rng: &mut Rng, short: usize) -> Vec<f64> {
    let mut out = Vec::with_capacity(65_536 * 9);
    'all: for i in 0..182 {
        for j in 0..182 {
            let (x, y) = (i as f64 * 0.75, j as f64 * 0.75);
            let z = if rng.one_in(50) { 2. } else { 1. };
            rectangle(&mut out, x, y, x + 0.75, y + 0.75, z);
            if out.len() >= 65_536 * 9 {
                break 'all;
            }
        }
    }
    out.truncate((65_536 - short) * 9);
    out
}

/// Floor and radius for an index.
pub fn place(rng: &mut Rng, mesh: &[f64]) -> (f64, f64) {
    let floor = match rng.below(6) {
        0 => rng.pick(&[0., -0., 1e6, -1e6, 1., 0.5]),
        1 => mesh[2 + 3 * rng.below(mesh.len() as u64 / 3) as usize],
        2 => rng.between(-10., 10.),
        _ => rng.pick(&[-1e6, -100., -20., -11., 0., -5.]),
    };
    let r = match rng.below(8) {
        0 => 0.,
        1 => rng.pick(&[1e6, -0., 5e-324, 1e-6, 4e-6, 100.]),
        _ => rng.between(0.05, 4.),
    };
    (floor, r)
}

/// A point for a question over a mesh: near a triangle, on a cell's border, or outside.
pub fn point(rng: &mut Rng, mesh: &[f64], measures: &[f64; 6], r: f64) -> [f64; 2] {
    let t = 9 * rng.below(mesh.len() as u64 / 9) as usize;
    match rng.below(8) {
        0 => {
            let at = |k: usize, rng: &mut Rng| {
                let reach = rng.pick(&[0., r, -r]);
                (measures[k] + (rng.below(12) as f64 - 2.) * measures[2] + reach).clamp(-3e6, 3e6)
            };
            [at(0, rng), at(1, rng)]
        }
        1 => [rng.between(-30., 30.), rng.between(-30., 30.)],
        2 if rng.one_in(4) => [rng.pick(&[3e6, -3e6, 0., 1e6]), rng.pick(&[3e6, -3e6, -0., 5.])],
        _ => point_near(rng, Family::Ordinary, &mesh[t..t + 9], r),
    }
}

/// One to 32 sections, as a tool has them or as a table can hold them.
pub fn sections(rng: &mut Rng) -> Vec<f64> {
    let n = if rng.one_in(12) { 32 } else { 1 + rng.below(4) };
    (0..n).flat_map(|_| section(rng)).collect()
}

pub fn section(rng: &mut Rng) -> [f64; 4] {
    let z0 = rng.pick(&[0., 0., -0., 1., 5., 0.25, 1e6]);
    let r1 = match rng.below(6) {
        0 => rng.pick(&[5e-324, 1e-9, 1e6, 100.]),
        _ => rng.between(0.05, 4.),
    };
    let r0 = rng.pick(&[0., -0., r1, r1 / 2., r1 * 0.9]);
    let rise = rng.pick(&[0., -0., 1., 0.5, 2., 1e9, 1e-9, 57.29]);
    [z0, r0, r1, rise]
}

/// Corner radii: flat, ball and between.
pub fn corner(rng: &mut Rng, r: f64) -> f64 {
    match rng.below(5) {
        0 => 0.,
        1 => r,
        2 => rng.pick(&[-0., r / 2., r / 4.]),
        _ => r * rng.unit(),
    }
}

/// A number that no range takes, or one just over its end.
pub fn bad(rng: &mut Rng, x: f64) -> f64 {
    match rng.below(8) {
        0 => f64::NAN,
        1 => f64::INFINITY,
        2 => f64::NEG_INFINITY,
        3 => 1_000_000.000_000_000_1,
        4 => -1_000_000.000_000_000_1,
        5 => rng.pick(&[3_000_000.000_000_000_5, -3_000_000.000_000_000_5, -5e-324, 1e300, -1.]),
        6 => -x,
        _ => any(rng),
    }
}

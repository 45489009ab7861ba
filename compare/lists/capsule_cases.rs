// Triangles and capsules of twelve kinds, from a seed.
pub struct Rng(pub u64);
impl Rng {
    pub fn next(&mut self) -> u64 {
        self.0 = self.0.wrapping_add(0x9e3779b97f4a7c15);
        let mut z = self.0;
        z = (z ^ (z >> 30)).wrapping_mul(0xbf58476d1ce4e5b9);
        z = (z ^ (z >> 27)).wrapping_mul(0x94d049bb133111eb);
        z ^ (z >> 31)
    }
    pub fn unit(&mut self) -> f64 { (self.next() >> 11) as f64 / (1u64 << 53) as f64 }
    pub fn span(&mut self, a: f64) -> f64 { (self.unit() * 2. - 1.) * a }
    pub fn below(&mut self, n: u64) -> u64 { self.next() % n }
}
pub const KINDS: u64 = 12;
/// nine coordinates, px py qx qy, r, eps
pub fn case(g: &mut Rng, kind: u64) -> [f64; 15] {
    let mut m = [0f64; 15];
    match kind {
        // ordinary
        0 => {
            for v in &mut m[..13] { *v = g.span(3.); }
            m[13] = g.unit() * 2.;
        }
        // small triangles near a larger disk
        1 => {
            let (x, y) = (g.span(6.), g.span(6.));
            for k in 0..3 { m[3 * k] = x + g.span(1.); m[3 * k + 1] = y + g.span(1.); m[3 * k + 2] = g.span(1.); }
            for v in &mut m[9..13] { *v = g.span(3.); }
            m[13] = 3.;
        }
        // degenerate: repeated corners, corners in line
        2 => {
            for v in &mut m[..13] { *v = g.span(3.); }
            m[13] = g.unit() * 2.;
            match g.below(4) {
                0 => { for k in 0..3 { m[3 + k] = m[k]; } }
                1 => { for k in 0..3 { m[6 + k] = m[3 + k]; } }
                2 => { for k in 0..6 { m[3 + k] = m[k % 3]; } }
                _ => { let t = g.span(2.); for k in 0..3 { m[6 + k] = m[k] + t * (m[3 + k] - m[k]); } }
            }
        }
        // upright
        3 => {
            for v in &mut m[..13] { *v = g.span(3.); }
            m[13] = g.unit() * 2.;
            match g.below(3) {
                0 => { m[3] = m[0]; m[6] = m[0]; }
                1 => { m[4] = m[1]; m[7] = m[1]; }
                _ => { m[3] = m[0]; m[4] = m[1]; }
            }
        }
        // needle
        4 => {
            for v in &mut m[..13] { *v = g.span(3.); }
            m[13] = g.unit() * 2.;
            let s = 10f64.powi(-(g.below(18) as i32));
            for k in 0..3 { m[6 + k] = m[k] + g.span(1.) * s; }
        }
        // touching in exactly representable points
        5 => {
            for v in &mut m[..13] { *v = (g.below(13) as f64 - 6.) * [1., 0.5, 3., 4.][g.below(4) as usize]; }
            m[13] = [0., 1., 2., 3., 4., 5., 13., 0.5][g.below(8) as usize];
            if g.below(3) == 0 { m[11] = m[9]; }
            if g.below(3) == 0 { m[12] = m[10]; }
        }
        // signed zeros and ones
        6 => {
            for v in &mut m[..14] { *v = [0., -0., 1., -1., 2., -2., 0.5][g.below(7) as usize]; }
            m[13] = m[13].abs() * [1., 0.][g.below(2) as usize];
            if g.below(8) == 0 { m[13] = -0.; }
        }
        // extremes of the ranges
        7 => {
            for v in &mut m[..9] { *v = [1e6, -1e6, 0., -0., 1e-300, 5e-324, 999999.9999999999, 1., 1e-9][g.below(9) as usize] * [1., -1.][g.below(2) as usize]; }
            for v in &mut m[9..13] { *v = [3e6, -3e6, 1e6, -1e6, 0., -0., 5e-324, 2e6, 1.][g.below(9) as usize]; }
            m[13] = [0., 1e6, 5e-324, 1., 1e-300, 999999.9999999999][g.below(6) as usize];
        }
        // determinants near 1e-300
        8 => {
            let s = 10f64.powf(-150. + g.span(1.5));
            for v in &mut m[..13] { *v = g.span(3.) * s; }
            m[13] = g.unit() * 2. * s;
            if g.below(2) == 0 { m[14] = 1e-12 * s; return m; }
        }
        // a single point, or no radius
        9 => {
            for v in &mut m[..13] { *v = g.span(3.); }
            m[13] = g.unit() * 2.;
            if g.below(2) == 0 { m[11] = m[9]; m[12] = m[10]; }
            if g.below(2) == 0 { m[13] = 0.; let k = g.below(3) as usize; m[9] = m[3 * k]; m[10] = m[3 * k + 1]; }
        }
        // far and large
        10 => {
            let s = 10f64.powf(g.span(6.));
            for v in &mut m[..9] { *v = g.span(1e6f64.min(s)); }
            for v in &mut m[9..13] { *v = g.span(3e6f64.min(3. * s)); }
            m[13] = g.unit() * s.min(1e6);
        }
        // any bits
        _ => {
            for v in &mut m { *v = f64::from_bits(g.next()); }
            if g.below(2) == 0 { for v in &mut m { *v = f64::from_bits((v.to_bits() & 0x800fffffffffffff) | (1000 + g.below(46)) << 52); } }
            if g.below(4) == 0 { let k = g.below(15) as usize; m[k] = [f64::NAN, f64::INFINITY, f64::NEG_INFINITY, 5e-324][g.below(4) as usize]; }
            return m;
        }
    }
    let scale = m[..9].iter().fold(1f64, |a, v| a.max(v.abs()));
    m[14] = 1e-12 * scale;
    m
}

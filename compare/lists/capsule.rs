// Writes the capsules' lines of crates/replay_contacts/stdin: what camlib's own functions, with document 01's numbers, answer to a fixed list of triangles and capsules.
#[path = "capsule_cases.rs"]
#[allow(dead_code)]
mod cases;
use cases::*;
use oracle_doc::flat::door::Triangle;
fn bits(x: f64) -> String { format!("{:016x}", if x.is_nan() { 0x7ff8000000000000 } else { x.to_bits() }) }
fn line(kind: u64, m: &[f64; 15]) -> (bool, String) {
    let t = Triangle::new(&std::array::from_fn(|k| m[k]));
    let a = t.max_in_capsule([m[9], m[10]], [m[11], m[12]], m[13], m[14]);
    let d = t.distance_xy([m[9], m[10]]);
    let mut s = format!("{}", (b'a' + kind as u8) as char);
    for v in m { s += " "; s += &bits(*v); }
    s += match a { None => " 0", _ => " 1" };
    s += " "; s += &bits(a.unwrap_or(0.)); s += " "; s += &bits(d);
    (a.is_some(), s)
}
fn main() {
    let mut g = Rng(20261115);
    let z = -0.0f64;
    // touching in exact points: a corner at distance r, an edge that grazes the circle, a flat triangle over the disk, both zeros as heights
    let fixed: [[f64; 15]; 8] = [
        [3., 4., 2., 9., 4., 1., 3., 9., 0., 0., 0., 0., 0., 5., 1e-12],
        [-3., 5., 1., 3., 5., 2., 0., 9., 7., 0., 0., 0., 0., 5., 1e-12],
        [-9., -9., 2., 9., -9., 2., 0., 9., 2., 0., 0., 1., 0., 1., 9e-12],
        [-1., -1., 0., 1., -1., z, 0., 1., z, 0., 0., 0., 0., 3., 1e-12],
        [-1., -1., z, 1., -1., 0., 0., 1., 0., 0., 0., 0., 0., 3., 1e-12],
        [0., 0., 2., 4., 0., 2., 0., 4., 2., 7., 1., 7., 1., 1., 4e-12],
        [0., 0., 2., 4., 0., 2., 0., 4., 2., 5., 1., 5., 1., 1., 4e-12],
        [1e6, 1e6, 1e6, -1e6, 1e6, -1e6, 1e6, -1e6, 0., 3e6, 3e6, -3e6, -3e6, 1e6, 1e-6],
    ];
    for m in &fixed { println!("{}", line(5, m).1); }
    for kind in 0..KINDS {
        // as many that meet as that do not, as far as they come
        let (mut met, mut none) = (0, 0);
        let mut tries = 0;
        while met + none < 24 {
            let m = case(&mut g, kind);
            tries += 1;
            let (hit, s) = line(kind, &m);
            if tries < 2000 && (if hit { met } else { none }) >= 16 { continue; }
            if hit { met += 1 } else { none += 1 }
            println!("{s}");
        }
    }
}

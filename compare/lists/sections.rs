// Answers the first thousand cases of crates/replay_sections: a mesh of six triangles, a tool and a chord are made from the case's number, as the program makes them,
// and what camlib's own functions, with document 01's numbers, answer to both section questions is written, a line a case.
use oracle_doc::flat::door::{Grid, Tool, surface};
fn next(x: u64) -> u64 {
    let a = x ^ (x << 13);
    let b = a ^ (a >> 7);
    b ^ (b << 17)
}
fn start(i: u64) -> u64 { (0..4).fold(i ^ 0x9e37_79b9_7f4a_7c15, |x, _| next(x)) }
fn unit(x: u64) -> f64 { f64::from_bits(0x3ff0_0000_0000_0000 | (x >> 12)) }
fn coordinate(x: u64) -> f64 { (unit(x) - 1.5) * 16. }
fn section(x: u64) -> [f64; 4] {
    let a = next(x);
    let b = next(a);
    let c = next(b);
    let r1 = unit(a) - 0.75;
    [(unit(x) - 1.) * 4., r1 * (unit(b) - 1.), r1, unit(c) - 1.]
}
fn main() {
    for i in 0..1000 {
        let seed = start(i);
        let mut x = seed;
        let mesh: Vec<f64> = (0..54).map(|i| { x = next(x); coordinate(start(seed ^ (i / 9 * 3 + i % 3))) + coordinate(x) / 2. }).collect();
        let q = next(seed);
        let mut draws = vec![q];
        for k in 0..8 { draws.push(next(draws[k])); }
        let n = match q & 63 { 0 => 0, 1 => 33, 2 => 32, 3..=19 => 1, 20..=35 => 2, _ => 3 };
        let a = [coordinate(draws[1]), coordinate(draws[2]), coordinate(draws[3]) + 2.];
        let b = [a[0] + coordinate(draws[4]) / 8., a[1] + coordinate(draws[5]) / 8., coordinate(draws[6]) + 2.];
        let mut x = draws[7];
        let table: Vec<f64> = (0..n).flat_map(|_| { let s = section(x); x = next(next(next(next(x)))); s }).collect();
        if n == 0 || n == 33 {
            println!("8 {:016x} 0 {:016x}", 0, 0);
            continue;
        }
        let grid = Grid::new(&surface(&mesh), -10., 1.).unwrap();
        let tool = Tool::new(&table);
        let (mut seen, mut stamp) = (vec![0u32; 6], 0);
        let height = grid.max_sections([a[0], a[1]], &tool, &mut seen, &mut stamp);
        let clear = grid.sections_chord_clear(a, b, &tool, 0., &mut seen, &mut stamp);
        let marks = seen.iter().fold(0u64, |m, s| m << 8 | *s as u64);
        println!("0 {:016x} {} {:016x}", height.to_bits(), if clear { 1 } else { 2 }, marks);
    }
}

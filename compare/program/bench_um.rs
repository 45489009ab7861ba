//! `bench micrometres`: version 2's builder beside version 1's over the same parts, and the set-up height beside a plain walk over the whole mesh.

use crate::MISSING;
use crate::bed::{Bed, Room, medians};
use crate::bench::used;
use crate::rng::Rng;
use crate::solids::SOLIDS;
use crate::um::raw;

/// A part in whole micrometres with its index, and room for what is lent.
struct Bench {
    mesh: Vec<i32>,
    floor: i32,
    r: i32,
    starts: Vec<u32>,
    members: Vec<u32>,
    measures: [i32; 4],
    sizes: [u32; 4],
    marks: Vec<u32>,
    stamp: u32,
}

impl Bench {
    fn build(&mut self) -> u32 {
        let mut bad = [0; 2];
        unsafe {
            raw::mandrikelo_build_um(
                self.mesh.as_ptr(), self.mesh.len(), self.floor, self.r, self.starts.as_mut_ptr(), self.starts.len(), self.members.as_mut_ptr(),
                self.members.len(), self.measures.as_mut_ptr(), self.sizes.as_mut_ptr(), bad.as_mut_ptr(),
            )
        }
    }

    /// Height, boxes met, triangles looked at.
    fn ask(&mut self, q: &[i32; 5]) -> (i32, u32, u32) {
        let (mut height, mut counts) = (0, [0; 3]);
        unsafe {
            raw::mandrikelo_setup_height(
                self.mesh.as_ptr(), self.mesh.len(), self.measures.as_ptr(), self.sizes.as_ptr(), self.starts.as_ptr(), self.starts.len(),
                self.members.as_ptr(), self.members.len(), self.marks.as_mut_ptr(), self.marks.len(), self.stamp, q[0], q[1], q[2], q[3], q[4],
                &mut height, counts.as_mut_ptr(),
            )
        };
        self.stamp = counts[1];
        (height, counts[2], counts[0])
    }
}

/// No grid: every triangle's box against the question's. Height and boxes met.
fn walk(mesh: &[i32], floor: i32, q: &[i32; 5]) -> (i32, u32) {
    let side = |k: usize| (q[k].min(q[k + 2]) as i64 - q[4] as i64, q[k].max(q[k + 2]) as i64 + q[4] as i64);
    let ((left, right), (near, far)) = (side(0), side(1));
    let (mut best, mut met) = (floor, 0);
    for t in mesh.chunks_exact(9) {
        let low = |k: usize| t[k].min(t[k + 3]).min(t[k + 6]) as i64;
        let high = |k: usize| t[k].max(t[k + 3]).max(t[k + 6]) as i64;
        if left <= high(0) && low(0) <= right && near <= high(1) && low(1) <= far {
            met += 1;
            best = best.max(high(2) as i32);
        }
    }
    (best, met)
}

pub fn run() {
    if ["build", "build_um", "setup_height"].iter().any(|d| MISSING.contains(d)) {
        return;
    }
    println!();
    println!("| in whole micrometres | ours, ns | beside it, ns | beside it / ours | cells, members; looked at |");
    println!("|---|---|---|---|---|");
    for (part, make) in SOLIDS {
        let mesh = make(20_000);
        let um: Vec<i32> = mesh.iter().map(|x| (1000. * x).round() as i32).collect();
        let n = mesh.len() / 9;
        let bed = Bed::new(mesh, -10., 2.);
        let mut room = Room::new(&bed);
        // as many starts as version 1's index of the part has
        let mut ours = Bench {
            mesh: um, floor: -10_000, r: 2_000, starts: bed.handed.starts.clone(), members: vec![0; 1 << 22], measures: [0; 4], sizes: [0; 4],
            marks: vec![0; n], stamp: 0,
        };
        assert!(ours.build() == 0 && room.build(&bed) == 0, "an index");
        let cells = ours.sizes[1] * ours.sizes[2];
        let held = format!("{cells}, {}", ours.starts[cells as usize]);
        let v1 = format!("version 1: {}, {}", bed.handed.sizes[1] * bed.handed.sizes[2], bed.handed.members.len());
        let [new, old] = medians(9, 1e8, 1, [&mut || used(ours.build()), &mut || used(room.build(&bed))]);
        println!("| build, beside version 1's, {part}, {n} triangles | {new:.0} | {old:.0} | {:.2} | {held}; {v1} |", old / new);
        for (name, reach, r) in [("a point, r 0", 0, 0), ("a point, r 0.5", 0, 500), ("a point, r 2", 0, 2_000), ("a line of up to 5, r 2", 5_000, 2_000)] {
            questions(&format!("set-up height, beside a plain walk, {name}, {part}"), &mut ours, &bed, reach, r);
        }
    }
}

fn questions(name: &str, ours: &mut Bench, bed: &Bed, reach: i32, r: i32) {
    let (low, high) = bed.reach();
    let mut rng = Rng::new(6, "um", 0);
    let all: Vec<[i32; 5]> = (0..100)
        .map(|_| {
            let p = [0, 1].map(|k| (1000. * rng.between(low[k], high[k])) as i32);
            let q = p.map(|x| x + (reach as f64 * rng.between(-1., 1.)) as i32);
            [p[0], p[1], q[0], q[1], r]
        })
        .collect();
    let mut looked = 0;
    for q in &all {
        let (height, met, count) = ours.ask(q);
        assert!((height, met) == walk(&ours.mesh, ours.floor, q), "{name}: {q:?}");
        looked += count;
    }
    let mesh = ours.mesh.clone();
    let floor = ours.floor;
    let [new, old] = medians(
        9, 1e8, all.len(),
        [
            &mut || all.iter().for_each(|q| used(ours.ask(q))),
            &mut || all.iter().for_each(|q| used(walk(std::hint::black_box(&mesh), floor, q))),
        ],
    );
    println!("| {name} | {new:.0} | {old:.0} | {:.1} | {:.1} |", old / new, looked as f64 / all.len() as f64);
}

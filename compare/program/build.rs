//! The builder: its refusals, header and tables beside the Rust's index.

use crate::case::Case;
use crate::doors::{self, Handed, Lent, Word};
use crate::inputs;
use crate::model;
use crate::parts::{Part, Tally, Verdict, agree};
use crate::rng::Rng;
use oracle_doc::flat::door::{self, Grid};

pub const PART: Part = Part {
    name: "build",
    doors: &["build"],
    make: make_build,
    compare: compare_build,
    widths: &[("mesh", 9)],
    unit: "meshes",
    share: 200,
};

fn make_build(rng: &mut Rng, case: u64, damage: bool) -> Case {
    let mut mesh = if case % 4000 == 3999 {
        let short = rng.below(2) as usize;
        inputs::largest(rng, short)
    } else {
        let most = rng.pick(&[4, 30, 30, 200, 2000]);
        inputs::mesh(rng, most)
    };
    let (mut floor, mut r) = inputs::place(rng, &mesh);
    // 0 plenty, 1 exact, 2 one start too few, 3 one member too few, 4 nothing lent.
    let mut room = rng.below(2) as u32;
    if damage {
        match rng.below(8) {
            0 => floor = inputs::bad(rng, floor),
            1 => r = inputs::bad(rng, r),
            2 => {
                for _ in 0..1 + rng.below(3) {
                    let i = rng.below(mesh.len() as u64) as usize;
                    mesh[i] = inputs::bad(rng, mesh[i]);
                }
            }
            3 => mesh.truncate(mesh.len() - 1 - rng.below(8) as usize),
            4 if rng.one_in(30) => mesh = vec![1.; 9 * 65_537],
            4 => mesh.clear(),
            5 => room = 2,
            6 => room = 3,
            7 => room = 5 + rng.below(4) as u32,
            _ => room = 4,
        }
    }
    Case::new("build").floats("mesh", mesh).floats("place", vec![floor, r]).words("room", vec![room])
}

/// What stands in a lent table before a call.
pub fn before(length: usize) -> Vec<u32> {
    (0..length as u32).map(|i| i.wrapping_mul(2_654_435_761)).collect()
}

fn compare_build(case: &Case, tally: &mut Tally) -> Verdict {
    let (mesh, place, room) = (case.f("mesh"), case.f("place"), case.u("room")[0]);
    let (floor, r) = (place[0], place[1]);
    let (starts_room, members_room) = match model::build(mesh, floor, r, usize::MAX, usize::MAX, mesh.len() / 9 * 5) {
        Err(_) => (50, 50),
        Ok(frame) => {
            let total: usize = model::covers(mesh, &frame).iter().map(|c| (c[1] + 1 - c[0]) * (c[3] + 1 - c[2])).sum();
            let cells = frame.columns * frame.rows;
            match room {
                0 => (cells + 7, total + 5),
                1 => (cells + 1, total),
                2 => (cells, total),
                3 => (cells + 1, total - 1),
                _ => (0, 0),
            }
        }
    };
    let five = mesh.len() / 9 * 5;
    let boxes_room = match room {
        5 => five + 1,
        6 => five.saturating_sub(1),
        7 => 0,
        8 => five + 5,
        _ => five,
    };
    let (starts_before, members_before) = (before(starts_room), before(members_room));
    let boxes_before = vec![f64::GUARD; boxes_room];
    let (mut starts, mut members) = (Lent::new(&starts_before), Lent::new(&members_before));
    let mut boxes = Lent::new(&boxes_before);
    let built = doors::build(mesh, floor, r, &mut starts, &mut members, &mut boxes);
    if !(starts.intact() && members.intact() && boxes.intact() && built.measures.intact() && built.sizes.intact() && built.bad.intact()) {
        return Err("a guard word was changed".into());
    }
    let expected = model::build(mesh, floor, r, starts_room, members_room, boxes_room);
    let refusal = expected.as_ref().err().copied().unwrap_or(0);
    tally.note(&format!("refusal {refusal}"), 1);
    tally.add("builds", 1);
    tally.unit();
    if built.refusal != refusal {
        return Err(format!("build: refusal {} where document 01 has {refusal}", built.refusal));
    }
    let bad = if refusal == 4 { model::first_bad(mesh) } else { [0; 2] };
    if !built.bad.holds(&bad) {
        return Err(format!("build: refusal {refusal} tells {:?}, the first bad number is {bad:?}", built.bad.get()));
    }
    if refusal != 0 {
        if !starts.holds(&starts_before) || !members.holds(&members_before) || !boxes.holds(&boxes_before) {
            return Err(format!("build: refusal {refusal} touched a table"));
        }
        if !built.measures.holds(&[0.; 6]) || !built.sizes.holds(&[0; 3]) {
            return Err(format!("build: refusal {refusal} with a header {:?} {:?}", built.measures.get(), built.sizes.get()));
        }
        return Ok(());
    }
    let grid = Grid::new(&door::surface(mesh), floor, r)?;
    let [x, y, cell, _, eps] = grid.measures();
    for (what, (ours, theirs)) in ["origin x", "origin y", "cell", "floor", "eps", "r"]
        .iter()
        .zip(built.measures.get().iter().zip([x, y, cell, floor, eps, r]))
    {
        agree(what, *ours, theirs)?;
    }
    let [columns, rows] = grid.dims();
    let sizes = [mesh.len() as u32 / 9, columns as u32, rows as u32];
    if !built.sizes.holds(&sizes) {
        return Err(format!("sizes: ours {:?}, the Rust's {sizes:?}", built.sizes.get()));
    }
    let (mut expected_starts, mut expected_members) = (starts_before, members_before);
    let at = flattened(&grid, &mut expected_starts, &mut expected_members);
    tally.add("starts and members", (columns * rows + 1 + at) as u64);
    for (what, ours, theirs) in [("starts", starts.get(), expected_starts), ("members", members.get(), expected_members)] {
        if let Some(i) = (0..ours.len()).find(|i| ours[*i] != theirs[*i]) {
            return Err(format!("{what}[{i}]: ours {}, the Rust's {}", ours[i], theirs[i]));
        }
    }
    tally.add("box numbers", boxes.len() as u64);
    for (i, (ours, theirs)) in boxes.get().iter().zip(grid.boxes()).enumerate() {
        agree(&format!("box of triangle {} number {}", i / 5, i % 5), *ours, theirs)?;
    }
    Ok(())
}

/// The oracle's cells as document 01's two tables; answers how many members there are.
fn flattened(grid: &Grid, starts: &mut [u32], members: &mut [u32]) -> usize {
    let [columns, rows] = grid.dims();
    let mut at = 0;
    for c in 0..columns * rows {
        starts[c] = at as u32;
        for i in grid.cell(c) {
            members[at] = *i;
            at += 1;
        }
    }
    starts[columns * rows] = at as u32;
    at
}

/// An index as the oracle makes it, in document 01's form; nothing where the builder refuses.
pub fn handed(mesh: &[f64], floor: f64, r: f64) -> Option<(Grid, Handed)> {
    let frame = model::build(mesh, floor, r, usize::MAX, usize::MAX, mesh.len() / 9 * 5).ok()?;
    let total: usize = model::covers(mesh, &frame).iter().map(|c| (c[1] + 1 - c[0]) * (c[3] + 1 - c[2])).sum();
    let grid = Grid::new(&door::surface(mesh), floor, r).ok()?;
    let (mut starts, mut members) = (vec![0; frame.columns * frame.rows + 1], vec![0; total]);
    flattened(&grid, &mut starts, &mut members);
    let sizes = [mesh.len() as u32 / 9, frame.columns as u32, frame.rows as u32];
    let boxes = grid.boxes();
    Some((grid, Handed { measures: frame.measures, sizes, starts, members, boxes }))
}

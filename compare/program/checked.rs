//! Two questions about an index: how much room a build needs, beside the Rust's index and beside builds with just that room and with less; and whether an
//! index is the one of its mesh, beside a rebuild, for one index after the other with one thing wrong, or nothing.

use crate::build;
use crate::case::Case;
use crate::damage;
use crate::doors::{self, Handed, Lent, Word};
use crate::inputs;
use crate::model;
use crate::parts::{Part, Tally, Verdict};
use crate::raised::mandrikelo_raise;
use crate::rng::Rng;

unsafe extern "C" {
    pub fn mandrikelo_rooms(mesh: *const f64, mesh_len: usize, floor: f64, r: f64, rooms: *mut usize) -> u32;
    pub fn mandrikelo_check_index(
        mesh: *const f64, mesh_len: usize, measures: *const f64, sizes: *const u32, starts: *const u32, starts_len: usize,
        members: *const u32, members_len: usize, boxes: *const f64, boxes_len: usize,
    ) -> u32;
}

pub const PART: Part = Part {
    name: "checked",
    doors: &["rooms", "check_index", "build", "raise"],
    make,
    compare,
    widths: &[("wrong", 4), ("mesh", 9)],
    unit: "indexes checked",
    share: 4_000,
};

/// Kinds of wrong beyond those of `damage::damaged`.
const SWAPPED: u32 = 20;
const STEPPED: u32 = 21;
const TURNED: u32 = 22;
const MOVED: u32 = 23;
const TRADED: u32 = 24;
const RAISED: u32 = 25;
const LOST: u32 = 26;
const TWICE: u32 = 27;
const LONGER: u32 = 28;
const SHIFTED: u32 = 29;
const NOTHING: u32 = 30;

fn make(rng: &mut Rng, case: u64, damage: bool) -> Case {
    let most = if case % 40 == 39 { 2000 } else { rng.pick(&[2, 4, 10, 30, 30, 100]) };
    let mut mesh = inputs::mesh(rng, most);
    if case % 400 == 399 {
        // More members than refusal 6 takes: triangles over every cell.
        mesh = [0., 0., 1., 100., 0., 1., 0., 100., 1.].repeat(4_096 + rng.below(10) as usize);
    }
    let (mut floor, mut r) = inputs::place(rng, &mesh);
    if damage {
        match rng.below(8) {
            0 => floor = inputs::bad(rng, floor),
            1 => r = inputs::bad(rng, r),
            2 => {
                let i = rng.below(mesh.len() as u64) as usize;
                mesh[i] = inputs::bad(rng, mesh[i]);
            }
            3 => mesh.truncate(mesh.len() - 1 - rng.below(8) as usize),
            4 => mesh.clear(),
            5 if rng.one_in(30) => mesh = vec![1.; 9 * 65_537],
            _ => {}
        }
    }
    let mut wrong = vec![NOTHING, 0, 0, 0];
    if let Some((_, h)) = build::handed(&mesh, floor, r) {
        for _ in 0..if mesh.len() < 2_000 { 40 } else { 8 } {
            if rng.one_in(4) {
                let entries = damage::damage_of(rng, &mesh, &h);
                wrong.extend(&entries[..4]);
            } else {
                let kind = SWAPPED + rng.below(10) as u32;
                let amount = rng.pick(&[1f64, 0.25, -0.5, 1e-9, 100., -0.]).to_bits();
                let value = if matches!(kind, MOVED | RAISED) { amount } else { rng.bits() };
                wrong.extend([kind, rng.bits() as u32, (value >> 32) as u32, value as u32]);
            }
        }
    }
    Case::new("checked").floats("mesh", mesh).floats("place", vec![floor, r]).words("wrong", wrong)
}

/// One thing wrong with a mesh or its index, or two that hide each other.
fn spoil(d: &[u32], mesh: &mut Vec<f64>, h: &mut Handed) {
    let (at, value) = (d[1] as usize, (d[2] as u64) << 32 | d[3] as u64);
    let (other, number) = (d[3] as usize, f64::from_bits(value));
    let (n, cells, total) = (mesh.len() / 9, h.starts.len() - 1, h.members.len());
    let turn = |x: &mut f64| *x = -*x;
    match d[0] {
        SWAPPED => h.members.swap(at % total, if other % 2 == 0 { (at % total + 1) % total } else { other % total }),
        STEPPED if other % 2 == 0 => h.members[at % total] = (h.members[at % total] + other as u32 / 2 % 3).wrapping_sub(1),
        STEPPED => h.starts[at % (cells + 1)] = (h.starts[at % (cells + 1)] + other as u32 / 2 % 3).wrapping_sub(1),
        TURNED => match other % 4 {
            0 => turn(&mut h.measures[at % 6]),
            1 => turn(&mut mesh[at % (9 * n)]),
            2 => h.boxes.iter_mut().filter(|x| **x == 0.).for_each(turn),
            _ => turn(&mut h.boxes[at % (5 * n)]),
        },
        MOVED => mesh.iter_mut().skip(at % 3).step_by(3).for_each(|x| *x += number),
        TRADED => (0..9).for_each(|k| mesh.swap(9 * (at % n) + k, 9 * (other % n) + k)),
        RAISED => raise(number, mesh, h),
        LOST => {
            h.members.remove(at % total);
            h.starts.iter_mut().filter(|s| **s as usize > at % total).for_each(|s| *s -= 1);
            if other % 2 == 0 {
                // As many as before: the last cell's stretch gets a number more.
                h.members.push(other as u32 / 2 % n as u32);
                h.starts[cells] += 1;
            }
        }
        TWICE => h.members[at % total] = h.members[if other % 2 == 0 { (at % total + 1) % total } else { other % total }],
        LONGER => {
            h.starts.extend([d[2], d[3]]);
            h.members.extend([d[3], d[2], 0]);
        }
        SHIFTED => {
            // Each start of some cells one member later or earlier.
            let (a, b) = ((at % (cells + 1)).min(other % (cells + 1)), (at % (cells + 1)).max(other % (cells + 1)));
            h.starts[a..=b].iter_mut().for_each(|s| *s = if d[2] % 2 == 0 { *s + 1 } else { s.wrapping_sub(1) });
        }
        NOTHING => {}
        _ => damage::damaged(d, mesh, h, &mut vec![]),
    }
}

fn raise(amount: f64, mesh: &mut [f64], h: &mut Handed) {
    let (mut measures, mut sizes, mut bad) = ([0f64; 6], [0u32; 3], [0u32; 2]);
    let refusal = unsafe {
        mandrikelo_raise(
            mesh.as_mut_ptr(), mesh.len(), h.boxes.as_mut_ptr(), h.boxes.len(), h.measures.as_ptr(), h.sizes.as_ptr(), amount,
            measures.as_mut_ptr(), sizes.as_mut_ptr(), bad.as_mut_ptr(),
        )
    };
    if refusal == 0 {
        h.measures = measures;
    }
}

fn same(ours: &[f64], theirs: &[f64]) -> bool {
    ours.len() == theirs.len() && ours.iter().zip(theirs).all(|(a, b)| a.to_bits() == b.to_bits())
}

/// What must be answered: the index that the Rust builds of this mesh, with this floor and r, is this one, entry by entry.
fn rebuilt(mesh: &[f64], h: &Handed) -> u32 {
    let n = mesh.len() / 9;
    if mesh.len() % 9 != 0 || n > model::MOST {
        return 1;
    }
    if h.boxes.len() != 5 * n {
        return 23;
    }
    let Some((_, afresh)) = build::handed(mesh, h.measures[3], h.measures[5]) else {
        return 7;
    };
    let is = same(&h.measures, &afresh.measures)
        && h.sizes == afresh.sizes
        && same(&h.boxes, &afresh.boxes)
        && h.starts.get(..afresh.starts.len()) == Some(&afresh.starts)
        && h.members.get(..afresh.members.len()) == Some(&afresh.members);
    if is { 0 } else { 7 }
}

pub fn check(mesh: &[f64], h: &Handed) -> u32 {
    unsafe {
        mandrikelo_check_index(
            mesh.as_ptr(), mesh.len(), h.measures.as_ptr(), h.sizes.as_ptr(), h.starts.as_ptr(), h.starts.len(), h.members.as_ptr(),
            h.members.len(), h.boxes.as_ptr(), h.boxes.len(),
        )
    }
}

fn compare(case: &Case, tally: &mut Tally) -> Verdict {
    let (mesh, floor, r) = (case.f("mesh"), case.f("place")[0], case.f("place")[1]);
    agree_rooms(mesh, floor, r, tally)?;
    let Some((_, h)) = build::handed(mesh, floor, r) else {
        tally.unit();
        return Ok(());
    };
    for d in case.u("wrong").chunks_exact(4) {
        let (mut mesh, mut h) = (mesh.to_vec(), h.clone());
        spoil(d, &mut mesh, &mut h);
        let (ours, wanted) = (check(&mesh, &h), rebuilt(&mesh, &h));
        tally.unit();
        tally.add("indexes checked", 1);
        tally.note(&format!("answer {wanted}"), 1);
        if ours != wanted {
            return Err(format!("{d:?}: answer {ours}, by a rebuild {wanted}"));
        }
        if matches!(d[0], RAISED | LONGER | NOTHING) && ours != 0 {
            return Err(format!("{d:?}: an index, raised, with more room or as built, is told by {ours}"));
        }
    }
    Ok(())
}

/// The rooms, beside the Rust's index and beside builds with just these, with more and with one less.
fn agree_rooms(mesh: &[f64], floor: f64, r: f64, tally: &mut Tally) -> Verdict {
    let n = mesh.len() / 9;
    let mut rooms = Lent::room(2, u64::GUARD);
    let refusal = unsafe { mandrikelo_rooms(mesh.as_ptr(), mesh.len(), floor, r, rooms.at().cast()) };
    let wanted = model::build(mesh, floor, r, usize::MAX, usize::MAX, 5 * n);
    tally.add("rooms", 1);
    tally.note(&format!("rooms told {}", wanted.as_ref().err().unwrap_or(&0)), 1);
    if !rooms.intact() || refusal != *wanted.as_ref().err().unwrap_or(&0) {
        return Err(format!("rooms: refusal {refusal}, not {:?}", wanted.err()));
    }
    if refusal != 0 {
        return if rooms.holds(&[0, 0]) { Ok(()) } else { Err(format!("rooms: refused by {refusal}, and not zero")) };
    }
    let Some((_, h)) = build::handed(mesh, floor, r) else {
        return Err("rooms: the Rust builds no index".into());
    };
    if !rooms.holds(&[h.starts.len() as u64, h.members.len() as u64]) {
        return Err(format!("rooms: {:?}, the Rust's {:?}", rooms.get(), (h.starts.len(), h.members.len())));
    }
    let built = |starts: usize, members: usize| {
        let (mut s, mut m, mut x) = (Lent::room(starts, 9u32), Lent::room(members, 9u32), Lent::room(5 * n, 9f64));
        doors::build(mesh, floor, r, &mut s, &mut m, &mut x).refusal
    };
    let (starts, members) = (h.starts.len(), h.members.len());
    let told = [built(starts, members), built(starts + 7, members + 7), built(starts - 1, members), built(starts, members - 1), built(starts - 1, members - 1)];
    tally.add("builds", 5);
    if told != [0, 0, 5, 6, 5] {
        return Err(format!("rooms: builds with them, more, a start less, a member less, both less are told {told:?}"));
    }
    Ok(())
}

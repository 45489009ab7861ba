//! A part on parallels: `raise`, once and again and again, beside the Rust's index built from the raised mesh.

use crate::build::handed;
use crate::case::Case;
use crate::damage::{damage_of, damaged};
use crate::doors::{self, Handed, Lent, Word};
use crate::inputs;
use crate::model;
use crate::parts::{Part, Tally, Verdict};
use crate::plan::make_plan;
use crate::rng::Rng;
use oracle_doc::flat::door;

unsafe extern "C" {
    pub fn mandrikelo_raise(
        mesh: *mut f64, mesh_len: usize, boxes: *mut f64, boxes_len: usize, measures: *const f64, sizes: *const u32, amount: f64,
        raised: *mut f64, raised_sizes: *mut u32, bad: *mut u32,
    ) -> u32;
}

pub const PART: Part = Part {
    name: "raised",
    doors: &["raise", "max_height", "max_bull", "plan"],
    make,
    compare,
    widths: &[("damage", 4), ("amounts", 1), ("questions", 6), ("mesh", 9)],
    unit: "parts raised",
    share: 5,
};

/// An amount: ordinary, none, one that rounds away, one that takes a corner to zero or to the end of its range.
fn amount(rng: &mut Rng, mesh: &[f64], damage: bool) -> f64 {
    let z = mesh[2 + 3 * rng.below(mesh.len() as u64 / 3) as usize];
    let highest = mesh.chunks_exact(3).fold(f64::NEG_INFINITY, |m, v| m.max(v[2]));
    match rng.below(if damage { 13 } else { 10 }) {
        0 => 0.,
        1 => -0.,
        2 => rng.pick(&[1e-17, -1e-17, 5e-324, 1e-9, 0.1]),
        3 => -z,
        4 => 1e6 - highest,
        5 => inputs::neighbour(rng, 1e6 - highest),
        6 => rng.pick(&[25., 0.5, -0.5, 100.25, 1e6, -1e6]),
        7..10 => rng.between(-50., 50.),
        10 => rng.pick(&[1_000_000.000_000_1, -1_000_000.000_000_1, f64::NAN, f64::INFINITY, f64::NEG_INFINITY]),
        _ => inputs::any(rng),
    }
}

fn make(rng: &mut Rng, case: u64, damage: bool) -> Case {
    // Every second case has the mesh of a plan, so that there are levels to raise.
    let plan = make_plan(rng, case % 90, false);
    let mesh = if case % 2 == 0 {
        plan.f("mesh").to_vec()
    } else {
        let most = rng.pick(&[4, 30, 30, 200]);
        inputs::mesh(rng, most)
    };
    let (floor, r) = if case % 2 == 0 { (plan.f("place")[0], plan.f("place")[1]) } else { inputs::place(rng, &mesh) };
    let amounts = (0..1 + rng.below(4)).map(|_| amount(rng, &mesh, damage)).collect();
    let (mut questions, mut harm) = (vec![], vec![]);
    if let Some((_, h)) = handed(&mesh, floor, r) {
        for _ in 0..8 {
            let radius = if rng.one_in(3) { r } else { rng.between(0., 2.) };
            let (p, q) = (inputs::point(rng, &mesh, &h.measures, radius), inputs::point(rng, &mesh, &h.measures, radius));
            questions.extend([p[0], p[1], q[0], q[1], radius, inputs::corner(rng, radius)]);
        }
        if damage {
            harm = damage_of(rng, &mesh, &h);
        }
    }
    Case::new("raised")
        .floats("mesh", mesh)
        .floats("place", vec![floor, r])
        .floats("amounts", amounts)
        .floats("questions", questions)
        .floats("parameters", plan.f("parameters").to_vec())
        .words("damage", harm)
}

/// The amount added to every z.
fn lifted(mesh: &[f64], amount: f64) -> Vec<f64> {
    mesh.iter().enumerate().map(|(k, x)| if k % 3 == 2 { x + amount } else { *x }).collect()
}

/// Document 02's refusals of `raise`, in their order, and the raised mesh.
fn raised(mesh: &[f64], h: &Handed, amount: f64) -> Result<Vec<f64>, u32> {
    let up = lifted(mesh, amount);
    let good = |table: &[f64]| table.iter().all(|x| x.abs() <= 1e6);
    match () {
        _ if mesh.len() % 9 != 0 || mesh.len() / 9 > model::MOST => Err(1),
        _ if h.boxes.len() != mesh.len() / 9 * 5 => Err(23),
        _ if !(amount.abs() <= 1e6) => Err(2),
        _ if !model::header_in_ranges(h) || h.sizes[0] as usize != mesh.len() / 9 || !good(mesh) => Err(7),
        _ if !good(&up) => Err(4),
        _ => Ok(up),
    }
}

fn same(ours: &[f64], theirs: &[f64]) -> bool {
    ours.len() == theirs.len() && ours.iter().zip(theirs).all(|(a, b)| a.to_bits() == b.to_bits())
}

fn compare(case: &Case, tally: &mut Tally) -> Verdict {
    let mut mesh = case.f("mesh").to_vec();
    let (floor, r) = (case.f("place")[0], case.f("place")[1]);
    tally.unit();
    let Some((_, mut h)) = handed(&mesh, floor, r) else {
        return Ok(());
    };
    let damage = case.u("damage");
    damaged(damage, &mut mesh, &mut h, &mut vec![]);
    for amount in case.f("amounts") {
        let (mut lent, mut boxes) = (Lent::new(&mesh), Lent::new(&h.boxes));
        let (mut measures, mut sizes, mut bad) = (Lent::room(6, f64::GUARD), Lent::room(3, u32::GUARD), Lent::room(2, u32::GUARD));
        let refusal = unsafe {
            mandrikelo_raise(
                lent.at(), lent.len(), boxes.at(), boxes.len(), h.measures.as_ptr(), h.sizes.as_ptr(), *amount, measures.at(), sizes.at(),
                bad.at(),
            )
        };
        tally.add("raised", 1);
        if !(lent.intact() && boxes.intact() && measures.intact() && sizes.intact() && bad.intact()) {
            return Err(format!("raised by {amount:?}: a guard word was changed"));
        }
        let wanted = raised(&mesh, &h, *amount);
        tally.note(&format!("refusal {}", wanted.as_ref().err().unwrap_or(&0)), 1);
        if refusal != *wanted.as_ref().err().unwrap_or(&0) {
            return Err(format!("raised by {amount:?}: refusal {refusal}, not {wanted:?}"));
        }
        let Ok(up) = wanted else {
            let told = if refusal == 4 { model::first_bad(&lifted(&mesh, *amount)) } else { [0; 2] };
            if !(lent.holds(&mesh) && boxes.holds(&h.boxes) && measures.holds(&[0.; 6]) && sizes.holds(&[0; 3]) && bad.holds(&told)) {
                return Err(format!("raised by {amount:?}: refusal {refusal} left something, or told {:?}, not {told:?}", bad.get()));
            }
            continue;
        };
        if !lent.holds(&up) || !bad.holds(&[0; 2]) || !sizes.holds(&h.sizes) {
            return Err(format!("raised by {amount:?}: mesh, sizes or bad"));
        }
        (mesh, h.boxes) = (up, boxes.get().to_vec());
        h.measures.copy_from_slice(measures.get());
        if !damage.is_empty() {
            // Not the builder's index: what it is after raising is told by document 02's rule alone.
            continue;
        }
        // The Rust's index of the raised mesh, field for field.
        let Some((grid, afresh)) = handed(&mesh, floor, r) else {
            return Err(format!("raised by {amount:?}: the Rust builds no index of the raised mesh"));
        };
        tally.add("numbers of the index", (h.boxes.len() + 6 + 3 + h.starts.len() + h.members.len()) as u64);
        if !(same(&h.boxes, &afresh.boxes) && same(&h.measures, &afresh.measures) && h.sizes == afresh.sizes)
            || h.starts != afresh.starts
            || h.members != afresh.members
        {
            return Err(format!("raised by {amount:?}: not the index that is built afresh"));
        }
        let n = mesh.len() / 9;
        for q in case.f("questions").chunks_exact(6) {
            let (mut marks, mut seen, mut now) = (Lent::room(n, 0u32), vec![0; n], 0);
            let height = grid.max_height([q[0], q[1]], [q[2], q[3]], q[4], &mut seen, &mut now);
            let ours = doors::max_height(&mesh, &h, &mut marks, 0, &q[..5]);
            agree_height("max_height", ours, height, &seen, &marks)?;
            let (mut marks, mut seen, mut now) = (Lent::room(n, 0u32), vec![0; n], 0);
            let height = grid.max_bull([q[0], q[1]], q[4], q[5], &mut seen, &mut now);
            let ours = doors::max_bull(&mesh, &h, &mut marks, 0, &[q[0], q[1], q[4], q[5]]);
            agree_height("max_bull", ours, height, &seen, &marks)?;
            tally.add("questions", 2);
        }
        agree_plan(case, &mesh, &h, floor, r, tally)?;
    }
    Ok(())
}

fn agree_height(what: &str, ours: doors::Answer, theirs: f64, seen: &[u32], marks: &Lent<u32>) -> Verdict {
    if ours.refusal != 0 {
        // A question out of its range: the other parts try these.
        return Ok(());
    }
    if !ours.intact || ours.height.to_bits() != theirs.to_bits() || !marks.holds(seen) {
        return Err(format!("{what} over a raised part: {:?}, the Rust's {theirs:?}", ours.height));
    }
    Ok(())
}

/// The plan of the raised part, where its parameters are a plan's.
fn agree_plan(case: &Case, mesh: &[f64], h: &Handed, floor: f64, r: f64, tally: &mut Tally) -> Verdict {
    let parameters: [f64; 7] = case.f("parameters").try_into().map_err(|_| "parameters")?;
    let (mut marks, mut levels, mut runs) = (Lent::room(mesh.len() / 9, 0u32), Lent::room(2_000, 0f64), Lent::room(20_000, 0f64));
    let ours = doors::plan(mesh, h, &mut marks, &parameters, 0, &mut levels, &mut runs);
    if !ours.intact {
        return Err("the plan of a raised part: a guard word was changed".into());
    }
    let early = model::plan(mesh, h, &vec![0; mesh.len() / 9], &parameters, 0);
    if early != 0 {
        return if ours.refusal == early { Ok(()) } else { Err(format!("the plan of a raised part: refusal {}, not {early}", ours.refusal)) };
    }
    let theirs = door::plan(&door::surface(mesh), floor, r, &parameters, 0, 400);
    let wanted = if theirs.refusal == 0 && theirs.runs.len() > runs.len() { 13 } else { theirs.refusal };
    tally.add("plans", 1);
    if ours.refusal != wanted {
        return Err(format!("the plan of a raised part: refusal {}, the Rust's {wanted}", ours.refusal));
    }
    if wanted == 0 {
        let counts = [theirs.levels.len() / 5, theirs.rows, theirs.runs.len() / 5].map(|n| n as u32);
        if ours.counts != counts
            || !same(&ours.lengths, &theirs.lengths)
            || !same(&levels.get()[..theirs.levels.len()], &theirs.levels)
            || !same(&runs.get()[..theirs.runs.len()], &theirs.runs)
        {
            return Err("the plan of a raised part: levels, rows, runs or lengths are not the Rust's".into());
        }
        tally.note("accepted plans", 1);
    }
    Ok(())
}

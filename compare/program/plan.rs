//! The plan: levels, rows, runs and lengths.

use crate::build::{before, handed};
use crate::case::Case;
use crate::damage::{damage_of, damaged};
use crate::doors::{self, Lent, Word};
use crate::inputs;
use crate::model;
use crate::parts::{Part, Tally, Verdict, agree};
use crate::rng::Rng;
use oracle_doc::flat::door;

pub const PART: Part = Part {
    name: "plan",
    doors: &["plan"],
    make: make_plan,
    compare: compare_plan,
    widths: &[("damage", 4), ("mesh", 9)],
    unit: "plans",
    share: 20,
};

/// A strip whose rows or samples come to about 65,535: x long, y short, radius 1.
fn make_strip(rng: &mut Rng) -> Case {
    let rows = rng.one_in(2);
    let pitch = if rows { 2. } else { 0.25 };
    let long = (65_533 + rng.below(5)) as f64 * pitch - 2. + rng.pick(&[0., 1e-9, -1e-9]);
    let mesh = vec![0., 0., 1., long, 0., 1., long, 1., 1., 0., 0., 1., long, 1., 1., 0., 1., 1.];
    Case::new("plan")
        .floats("mesh", mesh)
        .floats("place", vec![0., 1.])
        .words("damage", vec![])
        .floats("parameters", vec![1e-3, 1e-3, 2., 0., 0., 2., 10.])
        .words("axis", vec![rows as u32])
        .words("room", vec![10, 400_000])
}

/// Two levels whose rows meet: the last run of the upper ends where the first of the lower begins, at another height. What lies
/// between is no level, and near enough to both.
fn make_meeting(rng: &mut Rng) -> Case {
    let w = rng.pick(&[2., 4., 1.]);
    let r = w / 2.;
    let mut mesh = vec![];
    for (y, z) in [(0., 1.), (w + 2. * r, 0.85)] {
        mesh.extend([0., y, z, w, y, z, w, y + w, z, 0., y, z, w, y + w, z, 0., y + w, z]);
    }
    let far = 10. * w;
    mesh.extend([-far, -far, 0.92, far, -far, 0.92, far, far, 0.93, -far, -far, 0.92, far, far, 0.93, -far, far, 0.93]);
    if rng.one_in(2) {
        mesh.chunks_exact_mut(3).for_each(|v| v.swap(0, 1));
    }
    Case::new("plan")
        .floats("mesh", mesh)
        .floats("place", vec![0., r])
        .words("damage", vec![])
        .floats("parameters", vec![1e-3, 0.1, w, 0.1, 0., 2., 10.])
        .words("axis", vec![rng.below(2) as u32])
        .words("room", vec![20, 2_000])
}

pub fn make_plan(rng: &mut Rng, case: u64, damage: bool) -> Case {
    if case % 1000 == 999 {
        return make_strip(rng);
    }
    if case % 100 == 98 {
        return make_meeting(rng);
    }
    let most = rng.pick(&[8, 8, 30, 60]);
    let mesh = if rng.one_in(8) { inputs::mesh(rng, 10) } else { inputs::plate(rng, most) };
    let z = || mesh.chunks_exact(3).map(|v| v[2]);
    let (lowest, highest) = (z().fold(f64::INFINITY, f64::min), z().fold(f64::NEG_INFINITY, f64::max));
    let across = |k: usize| {
        let at = || mesh.chunks_exact(3).map(|v| v[k]);
        at().fold(f64::NEG_INFINITY, f64::max) - at().fold(f64::INFINITY, f64::min)
    };
    let size = across(0).max(across(1)).max(1e-3);
    let floor = match rng.below(4) {
        0 => lowest,
        1 => rng.pick(&[0., -0., -1.]),
        _ => (lowest - 1.).max(-1e6),
    };
    // Rows and samples for a moment's work.
    let r = (size * rng.pick(&[0.125, 0.2, 0.25, 0.5])).clamp(0.03, 1e6);
    let tolerance: f64 = rng.pick(&[1e-3, 1e-3, 1e-7, 0.01, 1e-5, 0.0009765625]);
    let level = rng.pick(&[tolerance, 0.1, 0.1, 0.05, 2e-3, tolerance * 2., 0.0625]).clamp(tolerance, 0.1);
    let stepover = (r * rng.pick(&[2., 1., 0.75, 1.25, 0.5])).max(16. * tolerance + 1e-9).min(2. * r);
    let leave = rng.pick(&[0., 0., -0., 0.1, 1e-3, 0.02]);
    let bottom = rng.pick(&[floor, (floor - 1.).max(-1e6)]);
    let top = match rng.below(10) {
        0 => highest.max(floor + 1.),
        1 => (highest - 1e-3).max(floor + 1e-3),
        _ => (highest + 1.).max(floor + 1.),
    }
    .min(1e6);
    let cutting = match rng.below(10) {
        0 => top - lowest,
        1 => 16. * tolerance + rng.between(0., 2.),
        _ => (top - lowest + 1.).min(1e6),
    };
    let (mut parameters, mut axis) = (vec![tolerance, level, stepover, leave, bottom, top, cutting], rng.below(2) as u32);
    // Room for levels and runs, in numbers; 20,000 is plenty.
    let mut room = vec![2_000, 20_000];
    let mut harm = vec![];
    if damage {
        match rng.below(6) {
            0 | 1 => {
                let i = rng.below(7) as usize;
                parameters[i] = match rng.below(3) {
                    0 => inputs::neighbour(rng, parameters[i]),
                    1 => edge(rng, i, floor, r, tolerance),
                    _ => inputs::bad(rng, parameters[i]),
                };
            }
            2 => axis = rng.pick(&[2, 3, u32::MAX]),
            3 => room[0] = rng.below(12) as u32,
            4 => room[1] = rng.below(60) as u32,
            _ => {
                if let Some((_, h)) = handed(&mesh, floor, r) {
                    harm = damage_of(rng, &mesh, &h);
                }
            }
        }
    }
    // A stepover that makes more rows than these and still not too many for document 01 takes hours, and shows nothing new.
    let rows = (size + 2. * r) / parameters[2];
    if 300. < rows && rows < 70_000. {
        parameters[2] = stepover;
    }
    Case::new("plan")
        .floats("mesh", mesh)
        .floats("place", vec![floor, r])
        .words("damage", harm)
        .floats("parameters", parameters)
        .words("axis", vec![axis])
        .words("room", room)
}

/// A bound of parameter i, or a neighbour of it.
fn edge(rng: &mut Rng, i: usize, floor: f64, r: f64, tolerance: f64) -> f64 {
    let bound = match i {
        0 => rng.pick(&[1e-7, 0.01]),
        1 => rng.pick(&[tolerance, 0.1]),
        2 => rng.pick(&[16. * tolerance, 2. * r]),
        3 => rng.pick(&[0., -0.]),
        4 | 5 => floor,
        _ => 16. * tolerance,
    };
    inputs::neighbour(rng, bound)
}

fn compare_plan(case: &Case, tally: &mut Tally) -> Verdict {
    let mut mesh = case.f("mesh").to_vec();
    let (floor, r) = (case.f("place")[0], case.f("place")[1]);
    let Some((_, mut h)) = handed(&mesh, floor, r) else {
        return Ok(());
    };
    let mut marks_before = before(mesh.len() / 9);
    let damage = case.u("damage");
    damaged(damage, &mut mesh, &mut h, &mut marks_before);
    let parameters: [f64; 7] = case.f("parameters").try_into().map_err(|_| "parameters")?;
    let (axis, room) = (case.u("axis")[0], case.u("room"));
    let levels_before = vec![f64::GUARD; room[0] as usize];
    let runs_before = vec![f64::GUARD; room[1] as usize];
    let mut marks = Lent::new(&marks_before);
    let (mut levels, mut runs) = (Lent::new(&levels_before), Lent::new(&runs_before));
    let ours = doors::plan(&mesh, &h, &mut marks, &parameters, axis, &mut levels, &mut runs);
    tally.add("plans", 1);
    tally.unit();
    if !ours.intact {
        return Err("a guard word was changed".into());
    }
    let early = model::plan(&mesh, &h, &marks_before, &parameters, axis);
    if early != 0 {
        tally.note(&format!("refusal {early}"), 1);
        if ours.refusal != early {
            return Err(format!("plan: refusal {} where document 01 has {early}", ours.refusal));
        }
        if !marks.holds(&marks_before) || !levels.holds(&levels_before) || !runs.holds(&runs_before) {
            return Err(format!("plan: refusal {early} touched a table"));
        }
        return zeros(&ours);
    }
    if !damage.is_empty() {
        // Not the builder's index: the Rust has no such plan.
        return Ok(());
    }
    let mut theirs = door::plan(&door::surface(&mesh), floor, r, &parameters, axis, room[0] as usize / 5);
    if theirs.refusal == 9 {
        return Err("the Rust refused a parameter that document 01 accepts".into());
    }
    if theirs.refusal == 0 && theirs.runs.len() / 5 > room[1] as usize / 5 {
        theirs.refusal = 13;
    }
    tally.note(&format!("refusal {}", theirs.refusal), 1);
    if ours.refusal != theirs.refusal {
        return Err(format!("plan: refusal {}, the Rust's {}", ours.refusal, theirs.refusal));
    }
    if !marks.holds(&vec![0; marks_before.len()]) {
        return Err("plan: a mark is not zero afterwards".into());
    }
    if theirs.refusal != 0 {
        if levels.get().iter().chain(runs.get()).any(|x| x.to_bits() != 0) {
            return Err(format!("plan: refusal {} left a level or a run", theirs.refusal));
        }
        return zeros(&ours);
    }
    let counts = [theirs.levels.len() as u32 / 5, theirs.rows as u32, theirs.runs.len() as u32 / 5];
    if ours.counts != counts {
        return Err(format!("levels, rows, runs: ours {:?}, the Rust's {counts:?}", ours.counts));
    }
    for (what, ours, theirs) in [("level", levels.get(), &theirs.levels), ("run", runs.get(), &theirs.runs)] {
        for (i, x) in ours.iter().enumerate() {
            agree(&format!("{what} {} number {}", i / 5, i % 5), *x, theirs.get(i).copied().unwrap_or(0.))?;
        }
    }
    agree("cut length", ours.lengths[0], theirs.lengths[0])?;
    agree("dropped length", ours.lengths[1], theirs.lengths[1])?;
    tally.note("levels", counts[0] as u64);
    tally.note("rows", counts[1] as u64);
    tally.note("runs", counts[2] as u64);
    tally.note("with a dropped length", (theirs.lengths[1] > 0.) as u64);
    Ok(())
}

fn zeros(p: &doors::Planned) -> Verdict {
    if p.counts != [0; 3] || p.lengths.iter().any(|x| x.to_bits() != 0) {
        return Err(format!("plan: refusal {} with counts {:?} and lengths {:?}", p.refusal, p.counts, p.lengths));
    }
    Ok(())
}

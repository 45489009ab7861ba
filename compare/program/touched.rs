//! What the cutter touched: the contacts of one triangle and the three height questions, beside camlib with a recorder of the candidate that won. The same
//! camlib without the recorder is asked too, so that a height that moved by it would be seen.

use crate::build::handed;
use crate::case::Case;
use crate::doors::{self, Answer, Lent};
use crate::inputs;
use crate::parts::{Part, Tally, Verdict, agree};
use crate::rng::Rng;
use oracle_doc::flat::door as plain;
use oracle_touched::flat::door::{self, Grid, Tool, Triangle};
use oracle_touched::tap;

pub const CONTACTS: Part = Part {
    name: "touched_contact",
    doors: &["max_in_capsule", "bull_contact", "section_contact"],
    make: make_contacts,
    compare: compare_contacts,
    widths: &[("asked", WIDTH)],
    unit: "triangles, each with the three cutters",
    share: 1_000,
};

pub const QUESTIONS: Part = Part {
    name: "touched_height",
    doors: &["max_height", "max_bull", "max_sections"],
    make: make_questions,
    compare: compare_questions,
    widths: &[("asked", 6), ("sections", 4), ("mesh", 9)],
    unit: "questions",
    share: 400,
};

/// A triangle, the segment, r, rc, floor, eps, and a section.
const WIDTH: usize = 9 + 4 + 4 + 4;

/// A number of a small lattice, both zeros among them: what is made of these ties often, and exactly.
fn lattice(rng: &mut Rng) -> f64 {
    rng.pick(&[0., -0., 1., -1., 2., -2., 0.5, 3.])
}

fn lattice_triangle(rng: &mut Rng) -> [f64; 9] {
    let mut t = [0.; 9].map(|_| lattice(rng));
    let z = lattice(rng);
    match rng.below(4) {
        // A flat top, with zeros of both signs.
        0 => (0..3).for_each(|k| t[3 * k + 2] = if z == 0. { rng.pick(&[0., -0.]) } else { z }),
        // Two corners equally high: an edge ties with both.
        1 => (t[2], t[5]) = (z, z),
        2 => (t[5], t[8]) = (z, -z),
        _ => {}
    }
    t
}

fn make_contacts(rng: &mut Rng, _: u64, _: bool) -> Case {
    let mut asked = vec![];
    for _ in 0..64 {
        let exact = rng.one_in(2);
        let f = inputs::family(rng);
        let t = if exact { lattice_triangle(rng) } else { inputs::triangle(rng, f) };
        let r = if exact { rng.pick(&[0., 1., 2., 0.5, 1.5]) } else { inputs::radius(rng, f) };
        let p = if exact { [lattice(rng), lattice(rng)] } else { inputs::point_near(rng, f, &t, r) };
        let q = match rng.below(3) {
            0 if exact => [lattice(rng), lattice(rng)],
            1 => inputs::point_near(rng, f, &t, r),
            _ => p,
        };
        let floor = match rng.below(3) {
            0 => f64::NEG_INFINITY,
            1 => t[2 + 3 * rng.below(3) as usize],
            _ => inputs::coordinate(rng, f),
        };
        asked.extend(t);
        asked.extend([p[0], p[1], q[0], q[1], r, inputs::corner(rng, r), floor, rng.pick(&[1e-12, 1e-11, 0., 2e-6])]);
        asked.extend(if exact { [lattice(rng).max(0.), 0.5, rng.pick(&[1., 2., 1.5]), rng.pick(&[0., 1., 2.])] } else { inputs::section(rng) });
    }
    Case::new(CONTACTS.name).floats("asked", asked)
}

/// Ours, camlib's with the recorder and what that recorded, and camlib's without it.
fn agree_contact(
    what: &str, tally: &mut Tally, ours: Result<Option<doors::Touched>, String>, theirs: Option<f64>, won: [u32; 2], plain: Option<f64>,
) -> Verdict {
    tally.add(what, 1);
    match (ours.map_err(|e| format!("{what}: {e}"))?, theirs, plain) {
        (None, None, None) if won == [0; 2] => Ok(()),
        (Some((z, t)), Some(a), Some(b)) => {
            agree(what, z, a)?;
            agree(&format!("{what}, moved by the recorder"), a, b)?;
            if t != won {
                return Err(format!("{what}: ours touches {t:?}, the Rust's {won:?}, at the height {z:?}"));
            }
            tally.note(["", "corners", "edges", "faces"][t[0] as usize], 1);
            Ok(())
        }
        (a, b, c) => Err(format!("{what}: ours {a:?}, the Rust's {b:?} and {c:?}, recorded {won:?}")),
    }
}

fn compare_contacts(case: &Case, tally: &mut Tally) -> Verdict {
    for a in case.f("asked").chunks_exact(WIDTH) {
        let t: [f64; 9] = a[..9].try_into().unwrap();
        let s: [f64; 4] = a[17..].try_into().unwrap();
        let (p, q, r, rc, floor, eps) = ([a[9], a[10]], [a[11], a[12]], a[13], a[14], a[15], a[16]);
        let (their, plain) = (Triangle::new(&t), plain::Triangle::new(&t));
        tally.unit();
        let ours = doors::max_in_capsule(&t, &[p[0], p[1], q[0], q[1], r, eps]);
        let z = their.max_in_capsule(p, q, r, eps);
        agree_contact("max_in_capsule", tally, ours, z, tap::won(), plain.max_in_capsule(p, q, r, eps))?;
        let ours = doors::bull_contact(&t, &[p[0], p[1], r, rc, floor]);
        let z = their.bull_contact(p, r, rc, floor);
        agree_contact("bull_contact", tally, ours, z, tap::won(), plain.bull_contact(p, r, rc, floor))?;
        let ours = doors::section_contact(&t, &p, &s);
        let z = their.section_contact(p, s);
        agree_contact("section_contact", tally, ours, z, tap::won(), plain.section_contact(p, s))?;
    }
    Ok(())
}

/// Triangles over a lattice that share corners, edges, tops and whole triangles.
fn tied(rng: &mut Rng) -> Vec<f64> {
    let mut m: Vec<f64> = (0..1 + rng.below(8)).flat_map(|_| lattice_triangle(rng)).collect();
    for _ in 0..rng.below(12) {
        let i = 9 * rng.below(m.len() as u64 / 9) as usize;
        let mut t: Vec<f64> = m[i..i + 9].to_vec();
        match rng.below(4) {
            // The same again, from another corner on.
            0 => t.rotate_left(3 * rng.below(3) as usize),
            // The other way round.
            1 => t = [&t[3..6], &t[..3], &t[6..]].concat(),
            // One that shares an edge.
            2 => (t[6], t[7], t[8]) = (lattice(rng), lattice(rng), t[2]),
            // One that shares a corner.
            _ => t[3..].iter_mut().for_each(|v| *v = lattice(rng)),
        }
        m.extend(t);
    }
    m
}

fn make_questions(rng: &mut Rng, _: u64, _: bool) -> Case {
    let exact = rng.one_in(2);
    let mesh = if exact { tied(rng) } else { inputs::mesh(rng, 30) };
    let (floor, r) = if exact { (rng.pick(&[-3., 0., -0., 1.]), rng.pick(&[1., 2., 0.5])) } else { inputs::place(rng, &mesh) };
    let Some((_, h)) = handed(&mesh, floor, r) else {
        return make_questions(rng, 0, false);
    };
    let tool = inputs::sections(rng);
    let mut asked = vec![];
    for _ in 0..20 {
        let other = rng.between(0., 2.);
        let r = if exact { rng.pick(&[0., 1., 2., 0.5]) } else { rng.pick(&[0., r, other]) };
        let point = |rng: &mut Rng| if exact { [lattice(rng), lattice(rng)] } else { inputs::point(rng, &mesh, &h.measures, r) };
        let p = point(rng);
        let q = if rng.one_in(2) { p } else { point(rng) };
        asked.extend([p[0], p[1], q[0], q[1], r, inputs::corner(rng, r)]);
    }
    Case::new(QUESTIONS.name).floats("mesh", mesh).floats("place", vec![floor, r]).floats("sections", tool).floats("asked", asked)
}

/// Ours beside what the oracle with the recorder answers and records, and what the other answers.
fn agree_height(what: &str, tally: &mut Tally, ours: Answer, looked: u32, theirs: f64, raised: [u32; 3], plain: f64) -> Verdict {
    tally.add(what, 1);
    tally.unit();
    if ours.refusal != 0 || !ours.intact {
        return Err(format!("{what}: refusal {} or a guard word changed", ours.refusal));
    }
    agree(what, ours.height, theirs)?;
    agree(&format!("{what}, moved by the recorder"), theirs, plain)?;
    if ours.count != looked || ours.touched != raised {
        return Err(format!("{what}: count and touched: ours {:?}, the Rust's {:?}", (ours.count, ours.touched), (looked, raised)));
    }
    tally.note(["the floor", "corners", "edges", "faces"][raised[1] as usize], 1);
    Ok(())
}

fn compare_questions(case: &Case, tally: &mut Tally) -> Verdict {
    let (mesh, table) = (case.f("mesh"), case.f("sections"));
    let (floor, r) = (case.f("place")[0], case.f("place")[1]);
    let (Some((grid, h)), Ok(their)) = (handed(mesh, floor, r), Grid::new(&door::surface(mesh), floor, r)) else {
        return Ok(());
    };
    let (tool, plain_tool) = (Tool::new(table), plain::Tool::new(table));
    let n = mesh.len() / 9;
    let (mut marks, mut stamp) = (Lent::room(n, 0u32), 0);
    let (mut seen, mut at, mut plain_seen, mut plain_at) = (vec![0; n], 0, vec![0; n], 0);
    let looked = |seen: &[u32], at: u32| seen.iter().filter(|s| **s == at).count() as u32;
    for a in case.f("asked").chunks_exact(6) {
        let (p, q, r, rc) = ([a[0], a[1]], [a[2], a[3]], a[4], a[5]);
        let ours = doors::max_height(mesh, &h, &mut marks, stamp, &a[..5]);
        let z = their.max_height(p, q, r, &mut seen, &mut at);
        let plain = grid.max_height(p, q, r, &mut plain_seen, &mut plain_at);
        agree_height("max_height", tally, ours, looked(&seen, at), z, tap::touched(), plain)?;
        let ours = doors::max_bull(mesh, &h, &mut marks, ours.stamp, &[p[0], p[1], r, rc]);
        let z = their.max_bull(p, r, rc, &mut seen, &mut at);
        let plain = grid.max_bull(p, r, rc, &mut plain_seen, &mut plain_at);
        agree_height("max_bull", tally, ours, looked(&seen, at), z, tap::touched(), plain)?;
        let ours = doors::max_sections(mesh, &h, &mut marks, ours.stamp, &p, table);
        let z = their.max_sections(p, &tool, &mut seen, &mut at);
        let plain = grid.max_sections(p, &plain_tool, &mut plain_seen, &mut plain_at);
        agree_height("max_sections", tally, ours, looked(&seen, at), z, tap::touched(), plain)?;
        stamp = ours.stamp;
    }
    Ok(())
}

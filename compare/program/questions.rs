//! The five questions over a mesh and its index, damaged or not: answer, count, stamp and all marks.

use crate::build::handed;
use crate::case::Case;
use crate::damage::{damage_of, damaged};
use crate::doors::{self, Answer, Handed, Lent};
use crate::inputs::{self, Family};
use crate::model::{self, Asked};
use crate::parts::{Part, Tally, Verdict, agree};
use crate::rng::Rng;
use oracle_doc::flat::door::{self, Grid, Tool};

pub const HEIGHT: Part = Part {
    name: "height",
    doors: &["max_height"],
    make: make_height,
    compare: compare_height,
    widths: &[("damage", 4), ("questions", 5), ("mesh", 9)],
    unit: "questions",
    share: 1_000,
};

pub const MAX_BULL: Part = Part {
    name: "max_bull",
    doors: &["max_bull"],
    make: make_max_bull,
    compare: compare_max_bull,
    widths: &[("damage", 4), ("questions", 4), ("mesh", 9)],
    unit: "questions",
    share: 200,
};

pub const MAX_SECTIONS: Part = Part {
    name: "max_sections",
    doors: &["max_sections"],
    make: make_max_sections,
    compare: compare_max_sections,
    widths: &[("damage", 4), ("questions", 2), ("sections", 4), ("mesh", 9)],
    unit: "questions",
    share: 100,
};

pub const BULL_CHORD: Part = Part {
    name: "bull_chord",
    doors: &["bull_chord_clear"],
    make: make_bull_chord,
    compare: compare_bull_chord,
    widths: &[("damage", 4), ("questions", 9), ("mesh", 9)],
    unit: "questions",
    share: 100,
};

pub const SECTIONS_CHORD: Part = Part {
    name: "sections_chord",
    doors: &["sections_chord_clear"],
    make: make_sections_chord,
    compare: compare_sections_chord,
    widths: &[("damage", 4), ("questions", 7), ("sections", 4), ("mesh", 9)],
    unit: "questions",
    share: 50,
};

/// Questions asked of one mesh.
const ASKED: u64 = 100;

/// A mesh with an index, marks and a stamp; then what `question` draws for each question, `width` numbers each.
fn make_questions(
    part: &'static str, rng: &mut Rng, case: u64, damage: bool, tool: Vec<f64>, width: usize,
    question: &dyn Fn(&mut Rng, &[f64], &[f64; 6], &Grid) -> Vec<f64>,
) -> Case {
    let mesh = if case % 500 == 499 && !damage {
        inputs::largest(rng, 0)
    } else {
        let most = if part == "height" { rng.pick(&[4, 30, 30, 120, 600]) } else { rng.pick(&[4, 20, 60]) };
        inputs::mesh(rng, most)
    };
    let (floor, r) = inputs::place(rng, &mesh);
    let Some((grid, h)) = handed(&mesh, floor, r) else {
        return make_questions(part, rng, case, damage, tool, width, question);
    };
    let stamp = match rng.below(4) {
        0 => 0,
        1 => u32::MAX - rng.below(6) as u32,
        2 => rng.bits() as u32,
        _ => rng.below(10) as u32,
    };
    let marks = (0..mesh.len() / 9)
        .map(|_| match rng.below(8) {
            0 => stamp,
            1 if damage && rng.one_in(4) => rng.bits() as u32,
            _ if stamp == 0 => 0,
            2 => rng.below(stamp as u64 + 1) as u32,
            _ => 0,
        })
        .collect();
    let mut questions = vec![];
    let count = if mesh.len() > 9 * 10_000 { 20 } else if damage { 10 } else { ASKED };
    for _ in 0..count {
        let mut q = question(rng, &mesh, &h.measures, &grid);
        if damage && rng.one_in(12) {
            let i = rng.below(q.len() as u64) as usize;
            q[i] = inputs::bad(rng, q[i]);
        }
        questions.extend(q);
    }
    let damage = if damage && !rng.one_in(6) { damage_of(rng, &mesh, &h) } else { vec![] };
    let mut case = Case::new(part)
        .floats("mesh", mesh)
        .floats("place", vec![floor, r])
        .words("stamp", vec![stamp])
        .words("marks", marks)
        .words("damage", damage)
        .floats("questions", questions);
    if !tool.is_empty() {
        case = case.floats("sections", tool);
    }
    case
}

fn lines(rng: &mut Rng, mesh: &[f64], measures: &[f64; 6], r: f64) -> [f64; 4] {
    let p = inputs::point(rng, mesh, measures, r);
    let q = if rng.one_in(2) { p } else { inputs::point(rng, mesh, measures, r) };
    [p[0], p[1], q[0], q[1]]
}

/// A question's radius: most often about the index's own.
fn asked_radius(rng: &mut Rng, measures: &[f64; 6]) -> f64 {
    match rng.below(6) {
        0 => 0.,
        1 => inputs::radius(rng, Family::Ordinary),
        2 => measures[2].min(1e6),
        3 => rng.between(0., 2.),
        _ => measures[5],
    }
}

fn chord_ends(rng: &mut Rng, mesh: &[f64], measures: &[f64; 6], r: f64) -> ([f64; 3], [f64; 3], f64) {
    let [px, py, qx, qy] = lines(rng, mesh, measures, r);
    let height = |rng: &mut Rng| {
        let z = mesh[2 + 3 * rng.below(mesh.len() as u64 / 3) as usize];
        match rng.below(6) {
            0 => z,
            1 => measures[3],
            2 => z + rng.between(-1., 1.),
            _ => z + rng.between(0., 4.),
        }
    };
    let (az, bz) = (height(rng), height(rng));
    let lift = rng.pick(&[0., -0., 0., 0.5, -0.5, 1e-9, 1e6, -1e6]);
    ([px, py, az], [qx, qy, if rng.one_in(3) { az } else { bz }], lift)
}

fn make_height(rng: &mut Rng, case: u64, damage: bool) -> Case {
    make_questions("height", rng, case, damage, vec![], 5, &|rng, mesh, measures, _| {
        if rng.one_in(16) {
            return vec![0., 0., 0., 0., 1.];
        }
        let r = asked_radius(rng, measures);
        let mut q = lines(rng, mesh, measures, r).to_vec();
        q.push(r);
        q
    })
}

fn make_max_bull(rng: &mut Rng, case: u64, damage: bool) -> Case {
    make_questions("max_bull", rng, case, damage, vec![], 4, &|rng, mesh, measures, _| {
        // Over the origin with radius 1, for corners on the unit circle.
        if rng.one_in(8) {
            return vec![0., 0., 1., inputs::corner(rng, 1.)];
        }
        let r = asked_radius(rng, measures);
        let p = inputs::point(rng, mesh, measures, r);
        vec![p[0], p[1], r, inputs::corner(rng, r)]
    })
}

/// A tool, and where the case is damaged one that refusal 8 is for.
pub fn make_tool(rng: &mut Rng, damage: bool) -> Vec<f64> {
    let mut tool = inputs::sections(rng);
    if damage && rng.one_in(3) {
        match rng.below(3) {
            0 => {
                let i = rng.below(tool.len() as u64) as usize;
                tool[i] = inputs::bad(rng, tool[i]);
            }
            1 => tool.truncate(tool.len() - 1 - rng.below(3) as usize),
            _ => tool = inputs::section(rng).repeat(33),
        }
    }
    tool
}

fn make_max_sections(rng: &mut Rng, case: u64, damage: bool) -> Case {
    let tool = make_tool(rng, damage);
    make_questions("max_sections", rng, case, damage, tool.clone(), 2, &|rng, mesh, measures, _| {
        let reach = tool.get(2).copied().filter(|r| (0. ..=10.).contains(r)).unwrap_or(1.);
        inputs::point(rng, mesh, measures, reach).to_vec()
    })
}

/// A chord at the height where the verdict turns, or a step of its bits from it: the smallest error in a bound shows there.
fn at_the_turn(rng: &mut Rng, a: &mut [f64; 3], b: &mut [f64; 3], clear: &dyn Fn([f64; 3], [f64; 3]) -> bool) {
    let (mut low, mut high) = (a[2].min(b[2]) - 20., a[2].max(b[2]) + 20.);
    let level = |z: f64| ([a[0], a[1], z], [b[0], b[1], z]);
    let told = |z: f64| clear(level(z).0, level(z).1);
    if told(low) || !told(high) {
        return;
    }
    for _ in 0..70 {
        let z = low + (high - low) / 2.;
        if z <= low || z >= high {
            break;
        }
        if told(z) { high = z } else { low = z }
    }
    let z = rng.pick(&[low, high]);
    (a[2], b[2]) = (z, z);
}

fn make_bull_chord(rng: &mut Rng, case: u64, damage: bool) -> Case {
    make_questions("bull_chord", rng, case, damage, vec![], 9, &|rng, mesh, measures, grid| {
        let r = asked_radius(rng, measures);
        let (mut a, mut b, lift) = chord_ends(rng, mesh, measures, r);
        let rc = inputs::corner(rng, r);
        if mesh.len() < 9 * 100 && rng.one_in(10) {
            let mut seen = vec![0; mesh.len() / 9];
            let seen = std::cell::RefCell::new(&mut seen);
            at_the_turn(rng, &mut a, &mut b, &|a, b| {
                seen.borrow_mut().fill(0);
                grid.bull_chord_clear(a, b, r, rc, lift, &mut seen.borrow_mut(), &mut 0)
            });
        }
        [&a[..], &b[..], &[r, rc, lift]].concat()
    })
}

fn make_sections_chord(rng: &mut Rng, case: u64, damage: bool) -> Case {
    let table = make_tool(rng, damage);
    let stands = model::sections_stand(&table);
    make_questions("sections_chord", rng, case, damage, table.clone(), 7, &|rng, mesh, measures, grid| {
        let reach = table.get(2).copied().filter(|r| (0. ..=10.).contains(r)).unwrap_or(1.);
        let (mut a, mut b, lift) = chord_ends(rng, mesh, measures, reach);
        if stands && mesh.len() < 9 * 100 && rng.one_in(10) {
            let tool = Tool::new(&table);
            let mut seen = vec![0; mesh.len() / 9];
            let seen = std::cell::RefCell::new(&mut seen);
            at_the_turn(rng, &mut a, &mut b, &|a, b| {
                seen.borrow_mut().fill(0);
                grid.sections_chord_clear(a, b, &tool, lift, &mut seen.borrow_mut(), &mut 0)
            });
        }
        [&a[..], &b[..], &[lift]].concat()
    })
}

/// What the oracle answers: a height or a verdict, with the stamp and the marks written.
type Oracle<'a> = &'a dyn Fn(&Grid, &[f64], &mut [u32], &mut u32) -> (f64, u32);
type Ours<'a> = &'a dyn Fn(&[f64], &Handed, &mut Lent<u32>, u32, &[f64]) -> Answer;
type Question<'a> = &'a dyn Fn(&[f64]) -> Asked<'a>;

fn compare_questions(case: &Case, tally: &mut Tally, width: usize, asked: Question, ours: Ours, theirs: Oracle) -> Verdict {
    let mut mesh = case.f("mesh").to_vec();
    let (floor, r) = (case.f("place")[0], case.f("place")[1]);
    let Some((mut grid, mut h)) = handed(&mesh, floor, r) else {
        return Ok(());
    };
    let mut marks = case.u("marks").to_vec();
    let damage = case.u("damage");
    damaged(damage, &mut mesh, &mut h, &mut marks);
    let mut afresh = !damage.is_empty();
    let (mut stamp, mut lent) = (case.u("stamp")[0], Lent::new(&marks));
    tally.note("meshes", 1);
    for q in case.f("questions").chunks_exact(width) {
        let a = asked(q);
        let refusal = model::question(&mesh, &h, &marks, stamp, &a);
        let answer = ours(&mesh, &h, &mut lent, stamp, q);
        tally.add("questions", 1);
        tally.unit();
        tally.note(&format!("refusal {refusal}"), 1);
        let at = |what: &str| format!("question {q:?} at stamp {stamp}: {what}");
        if !answer.intact {
            return Err(at("a guard word was changed"));
        }
        if answer.refusal != refusal {
            return Err(at(&format!("refusal {} where document 01 has {refusal}", answer.refusal)));
        }
        if refusal != 0 {
            if answer.height.to_bits() != 0 || answer.verdict != 0 || answer.count != 0 || answer.stamp != stamp || answer.touched != [0; 3] {
                return Err(at(&format!("refusal {refusal} with {answer:?}")));
            }
            if !lent.holds(&marks) {
                return Err(at(&format!("refusal {refusal} touched the marks")));
            }
            continue;
        }
        if afresh {
            grid = Grid::from_tables(&door::surface(&mesh), &h.measures, &h.sizes, &h.starts, &h.members, &h.boxes);
            afresh = false;
        }
        let (mut seen, mut now) = (marks.clone(), stamp);
        let (height, verdict) = theirs(&grid, q, &mut seen, &mut now);
        agree(&at("height"), answer.height, height)?;
        let turned = now != stamp && now != stamp.wrapping_add(1);
        let looked = |i: usize| now != stamp && seen[i] == now && (turned || marks[i] != now);
        let count = (0..seen.len()).filter(|i| looked(*i)).count() as u32;
        if (answer.verdict, answer.count, answer.stamp) != (verdict, count, now) {
            return Err(at(&format!(
                "verdict, count, stamp: ours {:?}, the Rust's {:?}",
                (answer.verdict, answer.count, answer.stamp), (verdict, count, now)
            )));
        }
        if let Some(i) = (0..seen.len()).find(|i| seen[*i] != lent.get()[*i]) {
            return Err(at(&format!("mark {i}: ours {}, the Rust's {}", lent.get()[i], seen[i])));
        }
        tally.note("marks", seen.len() as u64);
        tally.note("looks", count as u64);
        (marks, stamp) = (seen, now);
    }
    Ok(())
}

fn compare_height(case: &Case, tally: &mut Tally) -> Verdict {
    let asked = |q: &[f64]| Asked { p: [q[0], q[1], 0.], q: [q[2], q[3], 0.], radius: q[4], ..Default::default() };
    compare_questions(case, tally, 5, &asked, &doors::max_height, &|grid, q, seen, stamp| {
        (grid.max_height([q[0], q[1]], [q[2], q[3]], q[4], seen, stamp), 0)
    })
}

fn compare_max_bull(case: &Case, tally: &mut Tally) -> Verdict {
    let asked = |q: &[f64]| Asked { p: [q[0], q[1], 0.], q: [q[0], q[1], 0.], radius: q[2], corner: q[3], ..Default::default() };
    compare_questions(case, tally, 4, &asked, &doors::max_bull, &|grid, q, seen, stamp| {
        (grid.max_bull([q[0], q[1]], q[2], q[3], seen, stamp), 0)
    })
}

fn compare_max_sections(case: &Case, tally: &mut Tally) -> Verdict {
    let table = case.f("sections");
    let tool = Tool::new(table);
    let asked = |q: &[f64]| Asked { p: [q[0], q[1], 0.], q: [q[0], q[1], 0.], sections: Some(table), ..Default::default() };
    let ours = |mesh: &[f64], h: &Handed, marks: &mut Lent<u32>, stamp: u32, q: &[f64]| {
        doors::max_sections(mesh, h, marks, stamp, q, table)
    };
    compare_questions(case, tally, 2, &asked, &ours, &|grid, q, seen, stamp| {
        (grid.max_sections([q[0], q[1]], &tool, seen, stamp), 0)
    })
}

fn verdict(clear: bool) -> (f64, u32) {
    (0., if clear { 1 } else { 2 })
}

fn compare_bull_chord(case: &Case, tally: &mut Tally) -> Verdict {
    let asked = |q: &[f64]| Asked {
        p: [q[0], q[1], q[2]],
        q: [q[3], q[4], q[5]],
        radius: q[6],
        corner: q[7],
        lift: q[8],
        sections: None,
    };
    compare_questions(case, tally, 9, &asked, &doors::bull_chord_clear, &|grid, q, seen, stamp| {
        verdict(grid.bull_chord_clear([q[0], q[1], q[2]], [q[3], q[4], q[5]], q[6], q[7], q[8], seen, stamp))
    })
}

fn compare_sections_chord(case: &Case, tally: &mut Tally) -> Verdict {
    let table = case.f("sections");
    let tool = Tool::new(table);
    let asked = |q: &[f64]| Asked {
        p: [q[0], q[1], q[2]],
        q: [q[3], q[4], q[5]],
        lift: q[6],
        sections: Some(table),
        ..Default::default()
    };
    let ours = |mesh: &[f64], h: &Handed, marks: &mut Lent<u32>, stamp: u32, q: &[f64]| {
        doors::sections_chord_clear(mesh, h, marks, stamp, q, table)
    };
    compare_questions(case, tally, 7, &asked, &ours, &|grid, q, seen, stamp| {
        verdict(grid.sections_chord_clear([q[0], q[1], q[2]], [q[3], q[4], q[5]], &tool, q[6], seen, stamp))
    })
}

//! Nothing lost between the halves: the pieces that the Rust's plan made of its stretches, held to what the planner promises of them.

use crate::build::handed;
use crate::case::Case;
use crate::doors::{self, Lent, Word};
use crate::model;
use crate::parts::{Part, Tally, Verdict};
use crate::plan::make_plan;
use crate::rng::Rng;
use oracle_doc::flat::door;
use oracle_doc::numbers::Numbers;
use oracle_doc::tap::{self, Piece};

pub const PART: Part = Part {
    name: "halves",
    doors: &["plan", "max_height"],
    make,
    compare,
    widths: &[("mesh", 9)],
    unit: "accepted plans",
    share: 5,
};

fn make(rng: &mut Rng, case: u64, _: bool) -> Case {
    // Neither a damaged plan nor one of 65,535 rows.
    let mut plan = make_plan(rng, if case % 10 == 9 { 98 } else { 0 }, false);
    plan.part = PART.name;
    plan
}

fn same(a: [f64; 2], b: [f64; 2]) -> bool {
    a[0].to_bits() == b[0].to_bits() && a[1].to_bits() == b[1].to_bits()
}

fn length((a, b, _): &Piece) -> f64 {
    (b[0] - a[0]).hypot_of(b[1] - a[1])
}

/// What a stretch is halved to, in the order made.
struct Replay<'a> {
    height: &'a mut dyn FnMut(&Piece) -> Result<f64, String>,
    tolerance: f64,
    least: f64,
    pieces: Vec<(Piece, bool)>,
}

impl Replay<'_> {
    fn halve(&mut self, piece: Piece, left: u32) -> Verdict {
        let (a, b, z) = piece;
        let clear = (self.height)(&piece)? <= z + self.tolerance;
        if clear || length(&piece) <= self.least || left == 0 {
            self.pieces.push((piece, clear));
            return Ok(());
        }
        let middle = [(a[0] + b[0]) / 2., (a[1] + b[1]) / 2.];
        self.halve((a, middle, z), left - 1)?;
        self.halve((middle, b, z), left - 1)
    }
}

fn compare(case: &Case, tally: &mut Tally) -> Verdict {
    let mesh = case.f("mesh");
    let (floor, r) = (case.f("place")[0], case.f("place")[1]);
    let Some((_, h)) = handed(mesh, floor, r) else {
        return Ok(());
    };
    let parameters: [f64; 7] = case.f("parameters").try_into().map_err(|_| "parameters")?;
    let (axis, room) = (case.u("axis")[0], case.u("room"));
    if model::plan(mesh, &h, &vec![0; mesh.len() / 9], &parameters, axis) != 0 {
        return Ok(());
    }
    let theirs = door::plan(&door::surface(mesh), floor, r, &parameters, axis, room[0] as usize / 5);
    if theirs.refusal != 0 || theirs.runs.len() > room[1] as usize {
        return Ok(());
    }
    let (stretches, pieces) = tap::pieces();
    let (mut levels, mut runs) = (Lent::room(room[0] as usize, f64::GUARD), Lent::room(room[1] as usize, f64::GUARD));
    let mut marks = Lent::room(mesh.len() / 9, 7u32);
    let ours = doors::plan(mesh, &h, &mut marks, &parameters, axis, &mut levels, &mut runs);
    if ours.refusal != 0 || !ours.intact {
        return Err(format!("halves: refusal {} of a plan that the Rust accepts", ours.refusal));
    }
    tally.unit();
    tally.add("stretches", stretches.len() as u64);
    tally.add("pieces", pieces.len() as u64);
    tally.note("plans with a dropped piece", pieces.iter().any(|(_, kept)| !kept) as u64);
    // A swept-disk question of its own, with wiped marks and stamp 0.
    let mut height = |(a, b, _): &Piece| {
        let mut marks = Lent::room(mesh.len() / 9, 0u32);
        let asked = doors::max_height(mesh, &h, &mut marks, 0, &[a[0], a[1], b[0], b[1], r]);
        match asked.refusal {
            0 if asked.intact => Ok(asked.height),
            k => Err(format!("halves: {a:?} to {b:?} asked again: refusal {k}")),
        }
    };
    let tolerance = parameters[0];
    let least = parameters[2].min_of(r) / 4. / 16.;
    let mut at = 0;
    for stretch in &stretches {
        let mut replay = Replay { height: &mut height, tolerance, least, pieces: vec![] };
        replay.halve(*stretch, 32)?;
        let made = replay.pieces;
        let part = pieces.get(at..at + made.len()).ok_or("halves: the Rust made fewer pieces")?;
        at += made.len();
        let mut point = stretch.0;
        for (((a, b, z), kept), (piece, clear)) in part.iter().zip(&made) {
            if !same(*a, piece.0) || !same(*b, piece.1) || z.to_bits() != piece.2.to_bits() || kept != clear {
                return Err(format!("halves: piece {a:?} to {b:?}, kept {kept}, where the halving gives {piece:?}, kept {clear}"));
            }
            if !same(*a, point) {
                return Err(format!("halves: a piece begins at {a:?}, and the one before it ended at {point:?}"));
            }
            point = *b;
            if *kept && !(height(&(*a, *b, *z))? <= z + tolerance) {
                return Err(format!("halves: the kept piece {a:?} to {b:?} stands too deep"));
            }
        }
        if !same(point, stretch.1) {
            return Err(format!("halves: the last piece ends at {point:?}, the stretch at {:?}", stretch.1));
        }
    }
    if at != pieces.len() {
        return Err(format!("halves: {} pieces, {at} of them in a stretch", pieces.len()));
    }
    let dropped = pieces.iter().filter(|(_, kept)| !kept).fold(0f64, |sum, (piece, _)| sum + length(piece));
    if dropped.to_bits() != theirs.lengths[1].to_bits() || dropped.to_bits() != ours.lengths[1].to_bits() {
        return Err(format!("halves: dropped {dropped:?}, the Rust's {:?}, ours {:?}", theirs.lengths[1], ours.lengths[1]));
    }
    lie_in_runs(&pieces, &runs.get()[..ours.counts[2] as usize * 5])
}

/// Every kept piece lies in one run of the answer.
fn lie_in_runs(pieces: &[(Piece, bool)], runs: &[f64]) -> Verdict {
    let mut kept = pieces.iter().filter(|(_, kept)| *kept).map(|(piece, _)| piece).peekable();
    for run in runs.chunks_exact(5) {
        let Some(&(a, mut b, z)) = kept.next() else {
            return Err(format!("halves: the run {run:?} holds no piece"));
        };
        if !same(a, [run[0], run[1]]) || z.to_bits() != run[4].to_bits() {
            return Err(format!("halves: the piece from {a:?} does not begin the run {run:?}"));
        }
        while let Some(next) = kept.next_if(|(a, _, w)| *a == b && *w == z) {
            b = next.1;
        }
        if !same(b, [run[2], run[3]]) {
            return Err(format!("halves: the pieces end at {b:?}, their run {run:?} elsewhere"));
        }
    }
    match kept.next() {
        Some(piece) => Err(format!("halves: {piece:?} lies in no run")),
        None => Ok(()),
    }
}

//! The moves for a table of runs, step by step, beside camlib's own loop; and states that no beginning gave.

use crate::case::Case;
use crate::doors::{Lent, Word};
use crate::inputs;
use crate::parts::{Part, Tally, Verdict};
use crate::rng::Rng;
use oracle_doc::flat::door::{self, Moves};

mod raw {
    unsafe extern "C" {
        pub fn mandrikelo_moves_begin(
            runs: *const f64, runs_len: usize, heights: *const f64, start: *const f64, first_id: u64, position: *mut f64,
            state: *mut u64,
        ) -> u32;
        pub fn mandrikelo_moves_next(
            runs: *const f64, runs_len: usize, heights: *const f64, position: *mut f64, state: *mut u64, end: *mut f64,
            go: *mut u64,
        ) -> u32;
    }
}

pub const PART: Part = Part {
    name: "moves",
    doors: &["moves_begin", "moves_next"],
    make,
    compare,
    widths: &[("runs", 5), ("runs", 1), ("states", 6), ("positions", 3)],
    unit: "tables of runs",
    share: 1_000,
};

/// Few places, so that ends often equal starts; both zeros, and neighbours.
const PLACES: [f64; 8] = [0., -0., 1., 1.0000000000000002, -1., 5e-324, -1e6, 2.5];

fn place(rng: &mut Rng, places: usize) -> f64 {
    match rng.below(16) {
        0 => rng.between(-100., 100.),
        1 => rng.pick(&[1e6, -1e6]),
        _ => rng.pick(&PLACES[..places]),
    }
}

/// The table of a plan, or one of few places; its highest z is at most `feed`.
fn runs_of(rng: &mut Rng, feed: f64) -> Vec<f64> {
    let places = 1 + rng.below(PLACES.len() as u64) as usize;
    let many = if rng.one_in(10) { 40 } else { 6 };
    let mut runs: Vec<f64> = vec![];
    for _ in 0..rng.below(many) {
        let mut run = [0; 5].map(|_| place(rng, places));
        run[4] = match rng.below(4) {
            0 => feed,
            1 => -feed,
            _ => run[4],
        }
        .min(feed);
        if run[4] == feed && feed == 0. && rng.one_in(2) {
            run[4] = -feed;
        }
        if rng.one_in(3) {
            (run[2], run[3]) = (run[0], run[1]);
        }
        if let [.., bx, by, z] = runs[..]
            && rng.one_in(3)
        {
            // It begins where the last one ended, perhaps at the other zero.
            (run[0], run[1]) = (if rng.one_in(4) { -bx } else { bx }, by);
            if rng.one_in(2) {
                run[4] = z;
            }
        }
        runs.extend(run);
    }
    runs
}

fn planned(rng: &mut Rng) -> Vec<f64> {
    let mesh = inputs::plate(rng, 8);
    let z = || mesh.chunks_exact(3).map(|v| v[2]);
    let (lowest, highest) = (z().fold(f64::INFINITY, f64::min), z().fold(f64::NEG_INFINITY, f64::max));
    let (floor, r) = ((lowest - 1.).max(-1e6), 4.);
    let top = (highest + 1.).max(floor + 1.).min(1e6);
    let parameters = [1e-3, 0.05, 6., 0., floor, top, (top - lowest + 1.).min(1e6)];
    door::plan(&door::surface(&mesh), floor, r, &parameters, rng.below(2) as u32, 1_000).runs
}

fn halves(x: u64) -> [u32; 2] {
    [(x >> 32) as u32, x as u32]
}

fn make(rng: &mut Rng, case: u64, damage: bool) -> Case {
    let places = 1 + rng.below(PLACES.len() as u64) as usize;
    let mut heights = [0; 4].map(|_| place(rng, places));
    heights.sort_by(|a, b| b.total_cmp(a));
    let mut runs = runs_of(rng, heights[3]);
    let plan = case % 64 == 63;
    if plan {
        runs = planned(rng);
        let most = runs.chunks_exact(5).map(|r| r[4]).fold(-1e6, f64::max);
        heights.iter_mut().for_each(|h| *h = (most + h.abs()).min(1e6));
        heights.sort_by(|a, b| b.total_cmp(a));
    }
    let mut start = [place(rng, places), place(rng, places), heights[0]];
    if rng.one_in(4) && start[2] == heights[1] {
        heights[1] = if start[2] == 0. { -start[2] } else { start[2] };
    }
    let mut heights = [heights[1], heights[2], heights[3]];
    let n = runs.len() as u64 / 5;
    let most = u64::MAX - 7 * n - 1;
    let mut first = match rng.below(4) {
        0 => 1,
        1 => most,
        _ => 1 + rng.below(most),
    };
    if damage {
        for _ in 0..1 + rng.below(2) {
            match rng.below(6) {
                0 => runs.extend((0..1 + rng.below(4)).map(|_| 0.)),
                1 => first = rng.pick(&[0, most.wrapping_add(1), u64::MAX, u64::MAX - 7 * n, most, 1]),
                2 => {
                    let k = rng.below(3) as usize;
                    heights[k] = hurt(rng, heights[k]);
                }
                3 => {
                    let k = rng.below(3) as usize;
                    start[k] = hurt(rng, start[k]);
                }
                4 if !runs.is_empty() => {
                    let k = rng.below(runs.len() as u64) as usize;
                    runs[k] = hurt(rng, runs[k]);
                }
                // A run's z at the feed height, or just beside it.
                _ if n > 0 => {
                    let k = rng.below(n) as usize * 5 + 4;
                    runs[k] = inputs::neighbour(rng, heights[2]);
                }
                _ => {}
            }
        }
    }
    let (mut states, mut positions) = (vec![], vec![]);
    for _ in 0..if damage { 8 } else { 2 } {
        let phase = if rng.one_in(8) { rng.pick(&[7, 8, 9, u64::MAX, 1 << 32]) } else { rng.below(8) };
        let run = if rng.one_in(4) { rng.pick(&[n, n + 1, u64::MAX, n.wrapping_sub(1)]) } else { rng.below(n + 1) };
        let id = if rng.one_in(3) { rng.pick(&[u64::MAX, u64::MAX - 1, 0, 1]) } else { rng.bits() };
        states.extend([phase, run, id].iter().flat_map(|x| halves(*x)));
        let from = if runs.is_empty() || rng.one_in(2) { &PLACES[..] } else { &runs[..] };
        positions.extend([0; 3].map(|_| if rng.one_in(16) { inputs::any(rng) } else { rng.pick(from) }));
    }
    Case::new("moves")
        .floats("runs", runs)
        .floats("heights", heights.to_vec())
        .floats("start", start.to_vec())
        .words("first", halves(first).to_vec())
        .words("states", states)
        .floats("positions", positions)
        .words("plan", vec![plan as u32])
}

/// A number out of its range, one of a neighbour's bits, or the bound itself.
fn hurt(rng: &mut Rng, x: f64) -> f64 {
    match rng.below(3) {
        0 => inputs::neighbour(rng, x),
        1 => rng.pick(&[1e6, -1e6, 1_000_000.000_000_000_1, -1_000_000.000_000_000_1]),
        _ => inputs::bad(rng, x),
    }
}

fn within(x: f64) -> bool {
    x.abs() <= 1e6
}

/// Refusals 1, 26, 27 as document 02 has them, or 0.
fn refusal_of_begin(runs: &[f64], h: &[f64; 3], start: &[f64; 3], first: u64) -> u32 {
    let [clearance, retract, feed] = *h;
    let numbers = h.iter().chain(start).chain(runs);
    let ordered = feed <= retract && retract <= clearance && clearance <= start[2];
    let last = first as u128 + 7 * (runs.len() as u128 / 5) + 1;
    match () {
        _ if runs.len() % 5 != 0 => 1,
        _ if !ordered || runs.chunks_exact(5).any(|r| !(r[4] <= feed)) || numbers.into_iter().any(|x| !within(*x)) => 26,
        _ if first == 0 || last > u64::MAX as u128 => 27,
        _ => 0,
    }
}

/// Refusals 1 and 29, or 0.
fn refusal_of_state(runs: &[f64], s: &[u64; 3]) -> u32 {
    let n = runs.len() as u64 / 5;
    match () {
        _ if runs.len() % 5 != 0 => 1,
        _ if s[0] > 7 => 29,
        _ if s[0] == 7 => 0,
        _ if s[2] == u64::MAX || (s[1] >= n && !(s[0] == 0 && n == 0)) => 29,
        _ => 0,
    }
}

struct Ours {
    position: Lent<f64>,
    state: Lent<u64>,
    end: Lent<f64>,
    go: Lent<u64>,
}

impl Ours {
    fn new(position: &[f64], state: &[u64]) -> Self {
        Ours { position: Lent::new(position), state: Lent::new(state), end: Lent::room(3, f64::GUARD), go: Lent::room(2, u64::GUARD) }
    }
    fn next(&mut self, runs: &[f64], h: &[f64; 3]) -> Result<u32, String> {
        (self.end, self.go) = (Lent::room(3, f64::GUARD), Lent::room(2, u64::GUARD));
        let k = unsafe {
            raw::mandrikelo_moves_next(
                runs.as_ptr(), runs.len(), h.as_ptr(), self.position.at(), self.state.at(), self.end.at(), self.go.at(),
            )
        };
        if self.position.intact() && self.state.intact() && self.end.intact() && self.go.intact() {
            Ok(k)
        } else {
            Err("moves_next: a guard word was changed".into())
        }
    }
    fn no_move(&self) -> bool {
        self.end.holds(&[0.; 3]) && self.go.holds(&[0; 2])
    }
}

/// The same bits, all NaNs as one.
fn same(a: &[f64], b: &[f64]) -> bool {
    a.len() == b.len() && a.iter().zip(b).all(|(x, y)| x.to_bits() == y.to_bits() || x.is_nan() && y.is_nan())
}

/// One accepted step of both; whether there was a move.
fn step(ours: &mut Ours, theirs: &mut Moves, runs: &[f64], h: &[f64; 3]) -> Result<bool, String> {
    let before = ours.position.get().to_vec();
    let k = ours.next(runs, h)?;
    if k != 0 {
        return Err(format!("moves_next: refusal {k} of a step that the Rust takes"));
    }
    let rust = theirs.next()?;
    if !same(ours.position.get(), &theirs.position()) || !ours.state.holds(&theirs.state()) {
        return Err(format!(
            "moves_next: ours {:?} {:?}, the Rust's {:?} {:?}", ours.position.get(), ours.state.get(), theirs.position(), theirs.state()
        ));
    }
    match &rust {
        Some(m) if !same(&before, &m.start) || !same(ours.end.get(), &m.end) || !ours.go.holds(&[m.kind, m.id]) => Err(format!(
            "moves_next: ours {before:?} to {:?} {:?}, the Rust's {:?} to {:?} {:?}", ours.end.get(), ours.go.get(), m.start, m.end,
            [m.kind, m.id]
        )),
        None if !ours.no_move() => Err(format!("moves_next: {:?} {:?} at the end", ours.end.get(), ours.go.get())),
        _ => Ok(rust.is_some()),
    }
}

fn compare(case: &Case, tally: &mut Tally) -> Verdict {
    let runs = case.f("runs");
    let heights: [f64; 3] = case.f("heights").try_into().map_err(|_| "three heights")?;
    let start: [f64; 3] = case.f("start").try_into().map_err(|_| "a start")?;
    let whole = |w: &[u32]| (w[0] as u64) << 32 | w[1] as u64;
    begun(runs, &heights, &start, whole(case.u("first")), tally)?;
    tally.unit();
    tally.note("tables of a plan", (case.u("plan")[0] == 1 && !runs.is_empty()) as u64);
    for (s, p) in case.u("states").chunks_exact(6).zip(case.f("positions").chunks_exact(3)) {
        handed(runs, &heights, p, &[whole(&s[..2]), whole(&s[2..4]), whole(&s[4..])], tally)?;
    }
    Ok(())
}

/// A beginning, and the moves from it to the end.
fn begun(runs: &[f64], h: &[f64; 3], start: &[f64; 3], first: u64, tally: &mut Tally) -> Verdict {
    let mut ours = Ours::new(&[f64::GUARD; 3], &[u64::GUARD; 3]);
    let k = unsafe {
        raw::mandrikelo_moves_begin(
            runs.as_ptr(), runs.len(), h.as_ptr(), start.as_ptr(), first, ours.position.at(), ours.state.at(),
        )
    };
    let wanted = refusal_of_begin(runs, h, start, first);
    if !ours.position.intact() || !ours.state.intact() || k != wanted {
        return Err(format!("moves_begin: refusal {k} where document 02 has {wanted}, or a guard word changed"));
    }
    if wanted != 0 {
        tally.add(&format!("beginnings refused with {wanted}"), 1);
        let kept = ours.position.holds(&[f64::GUARD; 3]) && ours.state.holds(&[u64::GUARD; 3]);
        return if kept { Ok(()) } else { Err(format!("moves_begin: refusal {wanted} touched an array")) };
    }
    if !ours.position.holds(start) || !ours.state.holds(&[0, 0, first]) {
        return Err(format!("moves_begin: {:?} {:?}", ours.position.get(), ours.state.get()));
    }
    let mut theirs = Moves::new(runs, h, *start, &[0, 0, first]);
    let mut moves = 0;
    while step(&mut ours, &mut theirs, runs, h)? {
        moves += 1;
    }
    // The end stays the end.
    if step(&mut ours, &mut theirs, runs, h)? || moves > 7 * (runs.len() / 5) + 1 {
        return Err(format!("moves_next: {moves} moves of {} runs", runs.len() / 5));
    }
    tally.add("moves", moves as u64);
    tally.add("ends", 2);
    tally.note("with lines left out", (moves < 6 * (runs.len() / 5) + 1) as u64);
    Ok(())
}

/// One step from a state that was handed over.
fn handed(runs: &[f64], h: &[f64; 3], position: &[f64], state: &[u64; 3], tally: &mut Tally) -> Verdict {
    let mut ours = Ours::new(position, state);
    let wanted = refusal_of_state(runs, state);
    if wanted == 0 {
        tally.add("steps from a state handed over", 1);
        let mut theirs = Moves::new(runs, h, [position[0], position[1], position[2]], state);
        return step(&mut ours, &mut theirs, runs, h).map(|_| ());
    }
    tally.add(&format!("steps refused with {wanted}"), 1);
    let k = ours.next(runs, h)?;
    if k == wanted && ours.no_move() && ours.position.holds(position) && ours.state.holds(state) {
        Ok(())
    } else {
        Err(format!("moves_next: refusal {k} where document 02 has {wanted}, or something was touched"))
    }
}

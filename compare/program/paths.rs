//! Another planner's moves: `look_over` beside a walk of our own over the moves, with the Rust's questions as the judge.

use crate::build::handed;
use crate::case::Case;
use crate::damage::{damage_of, damaged};
use crate::doors::{Handed, Lent, Word};
use crate::inputs;
use crate::model;
use crate::parts::{Part, Tally, Verdict};
use crate::questions::make_tool;
use crate::rng::Rng;
use oracle_doc::flat::door::{self, Grid, Moves, Tool};

unsafe extern "C" {
    pub fn mandrikelo_look_over(
        bytes: *const u8, bytes_len: usize, mesh: *const f64, mesh_len: usize, measures: *const f64, sizes: *const u32,
        starts: *const u32, starts_len: usize, members: *const u32, members_len: usize, boxes: *const f64,
        boxes_len: usize, marks: *mut u32, marks_len: usize, sections: *const f64, sections_len: usize, tolerance: f64, finding: *mut u32,
    ) -> u32;
}

pub const PART: Part = Part {
    name: "paths",
    doors: &["look_over"],
    make,
    compare,
    widths: &[("damage", 4), ("mesh", 9)],
    unit: "lists of moves",
    share: 500,
};

const HEAD: usize = 34;
const MOVE: usize = 25;

/// A move as it is written down: its kind and its end.
type Leg = (u8, [f64; 3]);

pub fn file(start: [f64; 3], legs: &[Leg]) -> Vec<u8> {
    let mut out = b"FTP\x01\0\0".to_vec();
    out.extend((legs.len() as u32).to_le_bytes());
    start.iter().for_each(|x| out.extend(x.to_le_bytes()));
    for (kind, end) in legs {
        out.push(*kind);
        end.iter().for_each(|x| out.extend(x.to_le_bytes()));
    }
    out
}

/// Document 02's list of moves: the start and the legs, or the reader's refusal.
fn read(bytes: &[u8]) -> Result<([f64; 3], Vec<Leg>), u32> {
    match () {
        _ if bytes.len() < HEAD => return Err(14),
        _ if &bytes[..3] != b"FTP" => return Err(15),
        _ if bytes[3..5] != [1, 0] => return Err(16),
        _ if bytes[5] != 0 => return Err(17),
        _ => {}
    }
    let n = u32::from_le_bytes(bytes[6..10].try_into().unwrap()) as usize;
    if n > model::MOST {
        return Err(18);
    }
    let wanted = HEAD + MOVE * n;
    if bytes.len() != wanted {
        return Err(if bytes.len() < wanted { 19 } else { 21 });
    }
    let point = |at: usize| [0, 8, 16].map(|k| f64::from_le_bytes(bytes[at + k..at + k + 8].try_into().unwrap()));
    let start = point(10);
    let legs: Vec<Leg> = (0..n).map(|t| (bytes[HEAD + MOVE * t], point(HEAD + MOVE * t + 1))).collect();
    if start.iter().chain(legs.iter().flat_map(|l| &l.1)).any(|x| !x.is_finite()) {
        return Err(20);
    }
    if legs.iter().any(|l| l.0 > 1) {
        return Err(28);
    }
    Ok((start, legs))
}

/// The first bad move and why, by the Rust's questions, each with wiped marks.
fn first_bad(grid: &Grid, n: usize, r: f64, tool: &Tool, tolerance: f64, start: [f64; 3], legs: &[Leg]) -> [u32; 3] {
    let mut a = start;
    for (t, (kind, b)) in legs.iter().enumerate() {
        let (mut seen, mut stamp) = (vec![0; n], 0);
        let reason = if *kind == 0 {
            if grid.sections_chord_clear(a, *b, tool, 0., &mut seen, &mut stamp) { 0 } else { 1 }
        } else if a[2].to_bits() != b[2].to_bits() {
            2
        } else if grid.max_height([a[0], a[1]], [b[0], b[1]], r, &mut seen, &mut stamp) <= a[2] + tolerance {
            0
        } else {
            3
        };
        if reason != 0 {
            return [2, t as u32, reason];
        }
        a = *b;
    }
    [1, 0, 0]
}

/// Moves from point to point about a mesh: rapids at the heights of its corners or above, cuts at one height.
fn wandering(rng: &mut Rng, mesh: &[f64], h: &Handed, safe: bool) -> ([f64; 3], Vec<Leg>) {
    let top = mesh.chunks_exact(3).map(|v| v[2]).fold(f64::NEG_INFINITY, f64::max).max(h.measures[3]);
    let height = |rng: &mut Rng| {
        let z = mesh[2 + 3 * rng.below(mesh.len() as u64 / 3) as usize];
        match rng.below(if safe { 2 } else { 8 }) {
            0 | 1 => top + rng.between(0., 4.),
            2 => z,
            3 => h.measures[3],
            4 => z + rng.between(-1., 1.),
            5 => rng.pick(&[0., -0.]),
            _ => z + rng.between(0., 4.),
        }
        .clamp(-3e6, 3e6)
    };
    let place = |rng: &mut Rng, z: f64| {
        let p = inputs::point(rng, mesh, &h.measures, h.measures[5]);
        [p[0].clamp(-3e6, 3e6), p[1].clamp(-3e6, 3e6), z]
    };
    let z = height(rng);
    let start = place(rng, z);
    let mut at = start;
    let mut legs = vec![];
    for _ in 0..rng.pick(&[0, 1, 2, 4, 8, 20]) {
        let kind = rng.below(2) as u8;
        // A cut keeps its z, but for one that changes it, perhaps to the other zero only.
        let z = match rng.below(16) {
            0 if kind == 1 => height(rng),
            1 if kind == 1 => -at[2],
            _ if kind == 1 => at[2],
            2 => at[2],
            _ => height(rng),
        };
        at = match rng.below(12) {
            0 => at,
            1 => [at[0], at[1], z],
            _ => place(rng, z),
        };
        legs.push((kind, at));
    }
    (start, legs)
}

/// The moves of a plan's own runs: rapids as they are, cuts as cuts; a plunge and a retract go straight down and up, as rapids do.
fn planned(rng: &mut Rng, mesh: &[f64], floor: f64, r: f64, tolerance: f64) -> Option<([f64; 3], Vec<Leg>)> {
    let z = || mesh.chunks_exact(3).map(|v| v[2]);
    let (lowest, highest) = (z().fold(f64::INFINITY, f64::min), z().fold(f64::NEG_INFINITY, f64::max));
    let top = (highest + 1.).max(floor + 1.).min(1e6);
    let stepover = (1.5 * r).max(16. * tolerance + 1e-9).min(2. * r);
    let parameters = [tolerance, 0.05, stepover, 0., floor, top, (top - lowest + 1.).min(1e6)];
    let runs = door::plan(&door::surface(mesh), floor, r, &parameters, rng.below(2) as u32, 1_000).runs;
    if runs.is_empty() {
        return None;
    }
    let heights = [top + 3., top + 2., top + 1.];
    let start = [0., 0., top + 4.];
    let mut moves = Moves::new(&runs, &heights, start, &[0, 0, 1]);
    let mut legs = vec![];
    while let Ok(Some(m)) = moves.next() {
        legs.push(((m.kind == 3) as u8, m.end));
    }
    Some((start, legs))
}

/// One number of one move is changed, or its kind.
fn bend(rng: &mut Rng, start: &mut [f64; 3], legs: &mut [Leg]) {
    let t = rng.below(legs.len() as u64 + 1) as usize;
    let k = rng.below(3) as usize;
    let x = if t == 0 { &mut start[k] } else { &mut legs[t - 1].1[k] };
    match rng.below(6) {
        0 => *x = inputs::neighbour(rng, *x),
        1 => *x -= rng.between(0., 3.),
        2 => *x = -*x,
        3 => *x += rng.pick(&[1e-3, -1e-3, 1e-7, -1e-7, 0.01, -0.01]),
        4 if t > 0 => legs[t - 1].0 ^= 1,
        _ => *x += rng.between(-2., 2.),
    }
}

fn make(rng: &mut Rng, case: u64, damage: bool) -> Case {
    let plan = case >= 2_000 && rng.one_in(4);
    let mesh = if plan { inputs::plate(rng, 8) } else { inputs::mesh(rng, most(case)) };
    let (mut floor, mut r) = inputs::place(rng, &mesh);
    if plan {
        floor = (mesh.chunks_exact(3).map(|v| v[2]).fold(f64::INFINITY, f64::min) - 1.).max(-1e6);
        r = rng.pick(&[4., 2., 8.]);
    }
    let Some((_, h)) = handed(&mesh, floor, r) else {
        return make(rng, case, damage);
    };
    let mut tolerance: f64 = rng.pick(&[1e-3, 1e-7, 0.01, 1e-5]);
    let safe = case < 2_000 || rng.one_in(3);
    let (mut start, mut legs) = wandering(rng, &mesh, &h, safe);
    let mut own = false;
    if plan && let Some(path) = planned(rng, &mesh, floor, r, tolerance) {
        own = true;
        (start, legs) = path;
        legs.truncate(60);
    }
    // A plan's own moves keep to a thin tool, as long as nothing else is said.
    let mut tool = if own { vec![0., r, r, 0.] } else { make_tool(rng, damage) };
    if case < 2_000 {
        legs.truncate(4);
        while legs.len() < 4 {
            legs.push((0, start));
        }
    } else if own && !rng.one_in(8) {
        bend(rng, &mut start, &mut legs);
    }
    let mut bytes = file(start, &legs);
    let whole = bytes.len() as u64;
    let mut marks: Vec<u32> = (0..mesh.len() / 9).map(|_| if rng.one_in(2) { rng.bits() as u32 } else { 0 }).collect();
    // Each length, each bit and each pattern of a list of four moves, and each kind byte.
    if case < 160 {
        bytes.resize(case as usize, 7);
    } else if case < 160 + 8 * whole {
        let k = case - 160;
        bytes[k as usize / 8] ^= 1 << (k % 8);
    } else if case < 1_400 {
        let k = case as usize;
        let pattern: u64 = [
            0x7ff0_0000_0000_0000, 0xfff0_0000_0000_0000, 0x7ff8_0000_0000_0000, u64::MAX, 0x7ff0_0000_0000_0001, 0x7fef_ffff_ffff_ffff, 1 << 63, 1,
        ][k % 8];
        let at = 10 + MOVE * (k / 8 % 5) + 8 * (k / 40 % 3);
        bytes[at..at + 8].copy_from_slice(&pattern.to_le_bytes());
    } else if case < 2_000 {
        bytes[HEAD + MOVE * (case as usize % 4)] = (case / 4) as u8;
    }
    let mut harm = vec![];
    if damage {
        match rng.below(6) {
            0 => hurt(rng, &mut bytes),
            1 => tolerance = rng.pick(&[0., -1e-3, 9.999e-8, 0.010000000000000002, 1e-7, 0.01, f64::NAN, f64::INFINITY]),
            2 => {
                let at = 10 + MOVE * rng.below((bytes.len() as u64 + 15).saturating_sub(10) / 25).min(legs.len() as u64) as usize + 8 * rng.below(3) as usize;
                let x: f64 = rng.pick(&[3e6, -3e6, 3_000_000.000_000_000_5, -3_000_000.000_000_000_5, 1e300]);
                if at + 8 <= bytes.len() {
                    bytes[at..at + 8].copy_from_slice(&x.to_le_bytes());
                }
            }
            3 => tool = make_tool(rng, true),
            4 => marks.resize(rng.pick(&[0, marks.len() + 1, marks.len() - 1]), 0),
            _ => harm = damage_of(rng, &mesh, &h),
        }
    }
    // Counts at their limits, with the length to match.
    if case >= 2_000 && rng.one_in(10_000) {
        let n: u32 = rng.pick(&[65_535, 65_536, 65_537]);
        bytes.resize(HEAD + MOVE * n as usize, 0);
        bytes[6..10].copy_from_slice(&n.to_le_bytes());
    }
    Case::new("paths")
        .floats("mesh", mesh)
        .floats("place", vec![floor, r])
        .floats("sections", tool)
        .floats("tolerance", vec![tolerance])
        .words("marks", marks)
        .words("damage", harm)
        .words("own", vec![own as u32])
        .bytes("bytes", bytes)
}

fn most(case: u64) -> usize {
    if case < 2_000 { 10 } else { [4, 20, 60][case as usize % 3] }
}

fn hurt(rng: &mut Rng, bytes: &mut Vec<u8>) {
    let length = bytes.len() as u64;
    match rng.below(6) {
        0 | 1 if length > 0 => bytes[rng.below(length) as usize] = rng.bits() as u8,
        2 => bytes.truncate(rng.below(length + 1) as usize),
        3 => bytes.resize(bytes.len() + 1 + rng.below(60) as usize, 0),
        4 if length >= 10 => {
            let n: u32 = rng.pick(&[0, 1, 65_535, 65_536, 65_537, u32::MAX, 171_798_691]);
            bytes[6..10].copy_from_slice(&n.to_le_bytes());
        }
        _ if length > 34 => {
            let n = (length - 34) / 25;
            bytes[34 + 25 * rng.below(n.max(1)) as usize] = rng.pick(&[2, 3, 255, 128]);
        }
        _ => {}
    }
}

pub fn look_over(bytes: &[u8], mesh: &[f64], h: &Handed, marks: &mut Lent<u32>, tool: &[f64], tolerance: f64) -> (u32, Lent<u32>) {
    let mut finding = Lent::room(3, u32::GUARD);
    let k = unsafe {
        mandrikelo_look_over(
            bytes.as_ptr(), bytes.len(), mesh.as_ptr(), mesh.len(), h.measures.as_ptr(), h.sizes.as_ptr(), h.starts.as_ptr(),
            h.starts.len(), h.members.as_ptr(), h.members.len(), h.boxes.as_ptr(), h.boxes.len(), marks.at(), marks.len(), tool.as_ptr(),
            tool.len(), tolerance, finding.at(),
        )
    };
    (k, finding)
}

/// The refusal that document 02 has: the reader's, then 1, 23, 2, 8, 7.
fn refusal(bytes: &[u8], mesh: &[f64], h: &Handed, marks: &[u32], tool: &[f64], tolerance: f64) -> u32 {
    let (start, legs) = match read(bytes) {
        Ok(path) => path,
        Err(k) => return k,
    };
    let n = mesh.len() / 9;
    let points = start.iter().chain(legs.iter().flat_map(|l| &l.1));
    match () {
        _ if mesh.len() % 9 != 0 || n > model::MOST || marks.len() != n => 1,
        _ if h.boxes.len() != 5 * n => 23,
        _ if !(1e-7..=0.01).contains(&tolerance) || points.into_iter().any(|x| !(x.abs() <= 3e6)) => 2,
        _ if !model::sections_stand(tool) => 8,
        _ if !model::whole(mesh, h) => 7,
        _ => 0,
    }
}

fn compare(case: &Case, tally: &mut Tally) -> Verdict {
    let mut mesh = case.f("mesh").to_vec();
    let (floor, r) = (case.f("place")[0], case.f("place")[1]);
    let Some((mut grid, mut h)) = handed(&mesh, floor, r) else {
        return Ok(());
    };
    let mut marks = case.u("marks").to_vec();
    let damage = case.u("damage");
    damaged(damage, &mut mesh, &mut h, &mut marks);
    let (bytes, tool, tolerance) = (case.b("bytes"), case.f("sections"), case.f("tolerance")[0]);
    let mut lent = Lent::new(&marks);
    let (k, finding) = look_over(bytes, &mesh, &h, &mut lent, tool, tolerance);
    tally.add("lists of moves", 1);
    tally.unit();
    if !lent.intact() || !finding.intact() {
        return Err("look_over: a guard word was changed".into());
    }
    let wanted = refusal(bytes, &mesh, &h, &marks, tool, tolerance);
    tally.note(&format!("refusal {wanted}"), 1);
    if k != wanted {
        return Err(format!("look_over: refusal {k} where document 02 has {wanted}"));
    }
    if wanted != 0 {
        let kept = lent.holds(&marks) && finding.holds(&[0; 3]);
        return if kept { Ok(()) } else { Err(format!("look_over: refusal {wanted} touched the marks or has a verdict {:?}", finding.get())) };
    }
    if !damage.is_empty() {
        grid = Grid::from_tables(&door::surface(&mesh), &h.measures, &h.sizes, &h.starts, &h.members, &h.boxes);
    }
    let (start, legs) = read(bytes).unwrap();
    let theirs = first_bad(&grid, marks.len(), h.measures[5], &Tool::new(tool), tolerance, start, &legs);
    if !finding.holds(&theirs) {
        return Err(format!("look_over: ours {:?}, by the Rust's questions {theirs:?}", finding.get()));
    }
    if !lent.holds(&vec![0; marks.len()]) {
        return Err("look_over: the marks are not wiped".into());
    }
    tally.note("moves", legs.len() as u64);
    tally.note("of a plan", case.u("own")[0] as u64);
    tally.note("empty", legs.is_empty() as u64);
    tally.note(["passed", "blocked rapid", "changed z", "cut too deep"][theirs[2] as usize], 1);
    Ok(())
}

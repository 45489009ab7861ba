//! Whole micrometres: the reader of version 2, the builder and the set-up height, beside a plain walk over the mesh that knows no grid, and beside the
//! request's own rules for grid, tables, list and marks.

use crate::case::Case;
use crate::doors::{Lent, Word};
use crate::parts::{Part, Tally, Verdict};
use crate::rng::Rng;

pub mod raw {
    unsafe extern "C" {
        pub fn mandrikelo_read_job_um(
            bytes: *const u8, bytes_len: usize, mesh: *mut i32, mesh_len: usize, questions: *mut i32, questions_len: usize,
            measures: *mut i32, sizes: *mut u32,
        ) -> u32;
        pub fn mandrikelo_build_um(
            mesh: *const i32, mesh_len: usize, floor: i32, r: i32, starts: *mut u32, starts_len: usize, members: *mut u32,
            members_len: usize, measures: *mut i32, sizes: *mut u32, bad: *mut u32,
        ) -> u32;
        pub fn mandrikelo_setup_height(
            mesh: *const i32, mesh_len: usize, measures: *const i32, sizes: *const u32, starts: *const u32, starts_len: usize,
            members: *const u32, members_len: usize, marks: *mut u32, marks_len: usize, stamp: u32, px: i32, py: i32, qx: i32,
            qy: i32, r: i32, height: *mut i32, counts: *mut u32,
        ) -> u32;
    }
}

pub const PART: Part = Part {
    name: "um",
    doors: &["read_job_um", "build_um", "setup_height"],
    make,
    compare,
    widths: &[("mesh", 9), ("questions", 5), ("damage", 3)],
    unit: "meshes in micrometres",
    share: 100,
};

impl Word for i32 {
    const GUARD: i32 = 0x5a5a_5a5a;
    fn same(self, other: i32) -> bool {
        self == other
    }
}

const MOST: i64 = 1_000_000_000;

/// A number of a size that the case has, at its ends now and then.
fn number(rng: &mut Rng, most: i64) -> i32 {
    let x = match rng.below(8) {
        0 => most,
        1 => -most,
        2 => 0,
        _ => rng.below(2 * most as u64 + 1) as i64 - most,
    };
    x as i32
}

/// Out of its range, up to the ends of i32.
fn outside(rng: &mut Rng) -> i32 {
    rng.pick(&[i32::MIN, i32::MAX, 1_000_000_001, -1_000_000_001, i32::MIN + 1, 2_000_000_000])
}

fn make(rng: &mut Rng, _: u64, damage: bool) -> Case {
    let most = rng.pick(&[3, 10, 100, 5_000, 1_000_000, MOST]);
    let size = rng.pick(&[1, 4, most / 10 + 1, most]);
    let many = rng.pick(&[2, 12, 60]);
    let n = 1 + rng.below(many);
    let mut mesh = vec![];
    for _ in 0..n {
        let at = [number(rng, most), number(rng, most), number(rng, most)];
        for k in 0..9 {
            let x = at[k % 3] as i64 + number(rng, size) as i64;
            mesh.push(x.clamp(-MOST, MOST) as i32);
        }
    }
    let mut floor = number(rng, most);
    let mut r = number(rng, most).abs();
    let mut questions = vec![];
    for _ in 0..40 {
        let near = mesh[9 * rng.below(n) as usize..].to_vec();
        for k in 0..4 {
            let x = if rng.one_in(2) { number(rng, most) as i64 } else { near[k % 2] as i64 + number(rng, size) as i64 };
            questions.push(x.clamp(-MOST, MOST) as i32);
        }
        let reach = rng.pick(&[1, size, most]);
        questions.push(number(rng, reach).abs());
    }
    let mut damages = vec![];
    if damage {
        match rng.below(6) {
            0 => mesh.truncate(mesh.len() - rng.below(9) as usize),
            1 => {
                let k = rng.below(mesh.len() as u64) as usize;
                mesh[k] = outside(rng);
            }
            2 => floor = outside(rng),
            3 => r = rng.pick(&[-1, i32::MIN, i32::MAX, 1_000_000_001]),
            _ => damages = (0..3).map(|_| rng.bits() as u32).collect(),
        }
        for _ in 0..4 {
            let k = rng.below(questions.len() as u64) as usize;
            questions[k] = if k % 5 == 4 { rng.pick(&[-1, i32::MIN, i32::MAX]) } else { outside(rng) };
        }
    }
    let starts = rng.pick(&[0, 1, 2, 3, 5, 17, 100, 1_000, 70_000]);
    let members = if rng.one_in(6) { rng.below(60) as u32 } else { 400_000 };
    let stamp = rng.pick(&[0, 1, 7, u32::MAX - 2, u32::MAX]);
    let bits = |xs: &[i32]| xs.iter().map(|x| *x as u32).collect::<Vec<_>>();
    Case::new("um")
        .words("mesh", bits(&mesh))
        .words("measures", bits(&[floor, r]))
        .words("questions", bits(&questions))
        .words("lent", vec![starts, members, stamp])
        .words("damage", damages)
}

fn coordinate(x: i64) -> bool {
    x.abs() <= MOST
}

fn radius(x: i64) -> bool {
    (0..=MOST).contains(&x)
}

/// Low x, high x, low y, high y and top of a triangle.
fn bounds(t: &[i32]) -> [i64; 5] {
    let low = |k: usize| t[k].min(t[k + 3]).min(t[k + 6]) as i64;
    let high = |k: usize| t[k].max(t[k + 3]).max(t[k + 6]) as i64;
    [low(0), high(0), low(1), high(1), high(2)]
}

/// Whether a triangle's box meets the question's box grown by r.
fn meets(t: &[i32], q: &[i64]) -> bool {
    let b = bounds(t);
    let on = |low, high, p: i64, q: i64, r| p.min(q) - r <= high && low <= p.max(q) + r;
    on(b[0], b[1], q[0], q[2], q[4]) && on(b[2], b[3], q[1], q[3], q[4])
}

/// The plain walk: no grid.
fn plain(mesh: &[i32], floor: i64, q: &[i64]) -> (i64, u32) {
    let met: Vec<i64> = mesh.chunks(9).filter(|t| meets(t, q)).map(|t| bounds(t)[4]).collect();
    (met.iter().copied().fold(floor, i64::max), met.len() as u32)
}

struct Index {
    n: i64,
    x: i64,
    y: i64,
    floor: i64,
    r: i64,
    columns: i64,
    rows: i64,
    cell: i64,
}

/// The grid as the request has it, or a refusal and the bad place.
fn gridded(mesh: &[i32], floor: i64, r: i64, lent: usize) -> Result<Index, (u32, [u32; 2])> {
    let n = mesh.len() / 9;
    if mesh.len() % 9 != 0 || n > 65_536 {
        return Err((1, [0, 0]));
    }
    if n == 0 {
        return Err((3, [0, 0]));
    }
    if !coordinate(floor) || !radius(r) {
        return Err((2, [0, 0]));
    }
    if let Some(k) = mesh.iter().position(|x| !coordinate(*x as i64)) {
        return Err((4, [k as u32 / 9, k as u32 % 9]));
    }
    let all: Vec<[i64; 5]> = mesh.chunks(9).map(bounds).collect();
    let least = |k: usize| all.iter().map(|b| b[k]).min().unwrap();
    let most = |k: usize| all.iter().map(|b| b[k]).max().unwrap();
    let (x, y) = (least(0), least(2));
    for power in 0..32 {
        let cell = 1i64 << power;
        let (columns, rows) = ((most(1) - x) / cell + 1, (most(3) - y) / cell + 1);
        if columns <= 65_536 && rows <= 65_536 && columns * rows <= 1_048_576 && columns * rows + 1 <= lent as i64 {
            return Ok(Index { n: n as i64, x, y, floor, r, columns, rows, cell });
        }
    }
    Err((5, [0, 0]))
}

/// The cells of triangle t: columns, then rows, both ends included.
fn cells(g: &Index, t: &[i32]) -> [i64; 4] {
    let b = bounds(t);
    [(b[0] - g.x) / g.cell, (b[1] - g.x) / g.cell, (b[2] - g.y) / g.cell, (b[3] - g.y) / g.cell]
}

/// Starts and members of a grid.
fn tables(g: &Index, mesh: &[i32]) -> (Vec<u32>, Vec<u32>) {
    let (mut starts, mut members) = (vec![0], vec![]);
    let covered: Vec<[i64; 4]> = mesh.chunks(9).map(|t| cells(g, t)).collect();
    for y in 0..g.rows {
        for x in 0..g.columns {
            let here = |c: &[i64; 4]| c[0] <= x && x <= c[1] && c[2] <= y && y <= c[3];
            members.extend(covered.iter().enumerate().filter(|(_, c)| here(c)).map(|(i, _)| i as u32));
            starts.push(members.len() as u32);
        }
    }
    (starts, members)
}

struct Handed {
    measures: [i32; 4],
    sizes: [u32; 4],
    starts: Vec<u32>,
    members: Vec<u32>,
}

/// First and past-the-last cell of a question on an axis.
fn span(a: i64, b: i64, r: i64, origin: i64, cell: i64, count: i64) -> (i64, i64) {
    let (lo, hi) = ((a.min(b) - r - origin).div_euclid(cell), (a.max(b) + r - origin).div_euclid(cell));
    if hi < 0 || lo >= count { (0, 0) } else { (lo.max(0), (hi + 1).min(count)) }
}

/// What a question is refused with, or the list that it looks at.
fn list(mesh: &[i32], ix: &Handed, marks: &[u32], stamp: u32, q: &[i64]) -> Result<Vec<usize>, u32> {
    let n = marks.len();
    if n > 65_536 || mesh.len() != 9 * n {
        return Err(1);
    }
    if !q[..4].iter().all(|x| coordinate(*x)) || !radius(q[4]) {
        return Err(2);
    }
    let m: Vec<i64> = ix.measures.iter().map(|x| *x as i64).collect();
    let s: Vec<i64> = ix.sizes.iter().map(|x| *x as i64).collect();
    let counted = (1..=65_536).contains(&s[1]) && (1..=65_536).contains(&s[2]) && s[1] * s[2] <= 1_048_576;
    let power = s[3] > 0 && s[3] & (s[3] - 1) == 0;
    if !m[..3].iter().all(|x| coordinate(*x)) || !radius(m[3]) || !counted || !power || s[0] != n as i64 || n == 0 {
        return Err(7);
    }
    if s[1] * s[2] + 1 > ix.starts.len() as i64 {
        return Err(7);
    }
    let (x0, x1) = span(q[0], q[2], q[4], m[0], s[3], s[1]);
    let (y0, y1) = span(q[1], q[3], q[4], m[1], s[3], s[2]);
    let mut all = vec![];
    for y in y0..y1 {
        for x in x0..x1 {
            let c = (y * s[1] + x) as usize;
            let (a, e) = (ix.starts[c] as usize, ix.starts[c + 1] as usize);
            if a > e || e > ix.members.len() {
                return Err(7);
            }
            for i in &ix.members[a..e] {
                let i = *i as usize;
                if i >= n || marks[i] > stamp || mesh[9 * i..9 * i + 9].iter().any(|x| !coordinate(*x as i64)) {
                    return Err(7);
                }
                all.push(i);
            }
        }
    }
    Ok(all)
}

fn compare(case: &Case, tally: &mut Tally) -> Verdict {
    let signed = |name: &str| case.u(name).iter().map(|x| *x as i32).collect::<Vec<i32>>();
    let (mesh, measures, questions) = (signed("mesh"), signed("measures"), signed("questions"));
    let (floor, r) = (measures[0], measures[1]);
    let lent = case.u("lent");
    tally.unit();
    read(&mesh, floor, r, &questions, tally)?;
    let Some(mut ix) = built(&mesh, floor, r, lent, tally)? else {
        return Ok(());
    };
    let n = mesh.len() / 9;
    let mut marks = vec![0; n];
    let mut stamp = lent[2];
    let whole = damaged(&mut ix, &mut marks, case.u("damage"), stamp);
    for q in questions.chunks_exact(5) {
        stamp = asked(&mesh, &ix, &mut marks, stamp, q, whole, tally)?;
    }
    Ok(())
}

/// Changes one thing of an index or of the marks; says whether it is still the one built.
fn damaged(ix: &mut Handed, marks: &mut [u32], how: &[u32], stamp: u32) -> bool {
    let [what, at, to] = how[..] else { return true };
    let at = at as usize;
    match what % 6 {
        0 => ix.measures[at % 4] = to as i32,
        1 => ix.sizes[at % 4] = to % 70_000,
        2 => ix.sizes[3] = 3 + to % 5,
        3 => {
            let k = at % ix.starts.len();
            ix.starts[k] = to % 500
        }
        4 if !ix.members.is_empty() => {
            let k = at % ix.members.len();
            ix.members[k] = to % 80
        }
        _ => {
            let k = at % marks.len();
            marks[k] = stamp.saturating_add(to % 2)
        }
    }
    false
}

fn read(mesh: &[i32], floor: i32, r: i32, questions: &[i32], tally: &mut Tally) -> Verdict {
    let (n, m) = (mesh.len() / 9, questions.len() / 5);
    let mut job = b"FTM\x02\0\0".to_vec();
    job.extend((n as u32).to_le_bytes().into_iter().chain((m as u32).to_le_bytes()));
    let numbers = [&[floor, r], &mesh[..9 * n], &questions[..5 * m]].concat();
    job.extend(numbers.iter().flat_map(|x| x.to_le_bytes()));
    let whole = job.len();
    let cut = (floor as u32 as usize).wrapping_mul(31).wrapping_add(r as u32 as usize) % (whole + 60);
    for length in [whole, cut] {
        let bytes: Vec<u8> = job.iter().cycle().take(length).copied().collect();
        let before = |k: usize| (0..k as i32).map(|i| i - 7).collect::<Vec<_>>();
        let (held, asked) = (before(9 * n + 4), before(5 * m + 3));
        let (mut table, mut other) = (Lent::new(&held), Lent::new(&asked));
        let (mut f, mut s) = (Lent::room(2, i32::GUARD), Lent::room(2, u32::GUARD));
        let refusal = unsafe {
            raw::mandrikelo_read_job_um(
                bytes.as_ptr(), length, table.at(), table.len(), other.at(), other.len(), f.at(), s.at(),
            )
        };
        tally.add("files", 1);
        let told = (0..=n).filter(|i| 22 + 36 * i <= length).max().unwrap_or(0) as u32;
        let (want, numbers, counts) = match () {
            _ if length < 22 => (14, [0, 0], [0, 0]),
            _ if n == 0 => (18, [0, 0], [0, 0]),
            _ if length < whole => (19, [0, 0], [told, 0]),
            _ if length > whole => (21, [0, 0], [0, 0]),
            _ => (0, [floor, r], [n as u32, m as u32]),
        };
        let (mut left, mut right) = (held.clone(), asked.clone());
        if want == 0 {
            left[..9 * n].copy_from_slice(&mesh[..9 * n]);
            right[..5 * m].copy_from_slice(&questions[..5 * m]);
        }
        let intact = table.intact() && other.intact() && f.intact() && s.intact();
        if !intact || refusal != want || !f.holds(&numbers) || !s.holds(&counts) || !table.holds(&left) || !other.holds(&right) {
            return Err(format!("um: reading {length} of {whole} bytes: {refusal} {:?} {:?}, not {want}", f.get(), s.get()));
        }
    }
    Ok(())
}

fn built(mesh: &[i32], floor: i32, r: i32, lent: &[u32], tally: &mut Tally) -> Result<Option<Handed>, String> {
    let fill = |k: u32| (0..k).map(|i| i ^ 0xabcd).collect::<Vec<u32>>();
    let (before, behind) = (fill(lent[0]), fill(lent[1]));
    let (mut starts, mut members) = (Lent::new(&before), Lent::new(&behind));
    let (mut m, mut s, mut b) = (Lent::room(4, i32::GUARD), Lent::room(4, u32::GUARD), Lent::room(2, u32::GUARD));
    let refusal = unsafe {
        raw::mandrikelo_build_um(
            mesh.as_ptr(), mesh.len(), floor, r, starts.at(), starts.len(), members.at(), members.len(), m.at(), s.at(), b.at(),
        )
    };
    tally.add("builds", 1);
    if !(starts.intact() && members.intact() && m.intact() && s.intact() && b.intact()) {
        return Err("um: build changed a guard word".into());
    }
    let theirs = gridded(mesh, floor as i64, r as i64, starts.len()).and_then(|g| {
        let t = tables(&g, mesh);
        if t.1.len() > 16_777_216 || t.1.len() > members.len() { Err((6, [0, 0])) } else { Ok((g, t)) }
    });
    match theirs {
        Err((want, bad)) => {
            tally.note("builds refused", 1);
            if refusal != want || !b.holds(&bad) || !m.holds(&[0; 4]) || !s.holds(&[0; 4]) || !starts.holds(&before) || !members.holds(&behind) {
                return Err(format!("um: build gives {refusal} {:?}, the request {want} {bad:?}", b.get()));
            }
            Ok(None)
        }
        Ok((g, (want, held))) => {
            let measures = [g.x as i32, g.y as i32, g.floor as i32, g.r as i32];
            let sizes = [g.n as u32, g.columns as u32, g.rows as u32, g.cell as u32];
            let (mut first, mut second) = (before.clone(), behind.clone());
            first[..want.len()].copy_from_slice(&want);
            second[..held.len()].copy_from_slice(&held);
            if refusal != 0 || !m.holds(&measures) || !s.holds(&sizes) || !b.holds(&[0, 0]) {
                return Err(format!("um: build gives {refusal} {:?} {:?}, the request {measures:?} {sizes:?}", m.get(), s.get()));
            }
            if !starts.holds(&first) || !members.holds(&second) {
                return Err("um: build leaves other tables than the request".into());
            }
            Ok(Some(Handed { measures, sizes, starts: first, members: second }))
        }
    }
}

fn asked(mesh: &[i32], ix: &Handed, marks: &mut Vec<u32>, stamp: u32, q: &[i32], whole: bool, tally: &mut Tally) -> Result<u32, String> {
    let mut lent = Lent::new(marks);
    let (mut height, mut counts) = (Lent::room(1, i32::GUARD), Lent::room(3, u32::GUARD));
    let refusal = unsafe {
        raw::mandrikelo_setup_height(
            mesh.as_ptr(), mesh.len(), ix.measures.as_ptr(), ix.sizes.as_ptr(), ix.starts.as_ptr(), ix.starts.len(),
            ix.members.as_ptr(), ix.members.len(), lent.at(), lent.len(), stamp, q[0], q[1], q[2], q[3], q[4], height.at(),
            counts.at(),
        )
    };
    let wide: Vec<i64> = q.iter().map(|x| *x as i64).collect();
    tally.add("questions", 1);
    if !lent.intact() || !height.intact() || !counts.intact() {
        return Err("um: a question changed a guard word".into());
    }
    match list(mesh, ix, marks, stamp, &wide) {
        Err(want) => {
            tally.note("questions refused", 1);
            if refusal != want || !height.holds(&[0]) || !counts.holds(&[0, stamp, 0]) || !lent.holds(marks) {
                return Err(format!("um: {q:?} gives {refusal} {:?}, the request {want}", counts.get()));
            }
            Ok(stamp)
        }
        Ok(numbers) => {
            if stamp == u32::MAX {
                marks.fill(0);
            }
            let next = if stamp == u32::MAX { 1 } else { stamp + 1 };
            let (mut best, mut met, mut looked) = (ix.measures[2] as i64, 0, 0);
            for i in numbers {
                if marks[i] != next {
                    marks[i] = next;
                    looked += 1;
                    let t = &mesh[9 * i..9 * i + 9];
                    if meets(t, &wide) {
                        met += 1;
                        best = best.max(bounds(t)[4]);
                    }
                }
            }
            if whole && (best, met) != plain(mesh, ix.measures[2] as i64, &wide) {
                return Err(format!("um: {q:?}: the walk's rules do not give the plain walk's answer"));
            }
            if refusal != 0 || !height.holds(&[best as i32]) || !counts.holds(&[looked, next, met]) || !lent.holds(marks) {
                return Err(format!(
                    "um: {q:?} gives {refusal} {:?} {:?}, the plain walk {best} {looked} {next} {met}", height.get(), counts.get(),
                ));
            }
            Ok(next)
        }
    }
}

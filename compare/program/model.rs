//! Document 01's refusals and its job file, written down a second time: what the Rust does not say, for the comparison to hold
//! the planner to. Short and slow.

use crate::doors::Handed;
use oracle_doc::numbers::Numbers;

pub const MOST: usize = 65_536;

fn within(x: f64, most: f64) -> bool {
    x.abs() <= most
}

fn radius(r: f64) -> bool {
    (0. ..=1e6).contains(&r)
}

/// The grid that document 01 describes: measures, columns, rows.
pub struct Frame {
    pub measures: [f64; 6],
    pub columns: usize,
    pub rows: usize,
}

/// The columns and rows that each triangle covers: first and last of each.
pub fn covers(mesh: &[f64], frame: &Frame) -> Vec<[usize; 4]> {
    let [x, y, cell, ..] = frame.measures;
    mesh.chunks_exact(9)
        .map(|t| {
            let low = |k: usize| t[k].min_of(t[k + 3]).min_of(t[k + 6]);
            let high = |k: usize| t[k].max_of(t[k + 3]).max_of(t[k + 6]);
            let at = |v: f64, origin: f64| ((v - origin) / cell) as usize;
            [
                at(low(0), x),
                at(high(0), x).min(frame.columns - 1),
                at(low(1), y),
                at(high(1), y).min(frame.rows - 1),
            ]
        })
        .collect()
}

pub fn frame(mesh: &[f64], floor: f64, r: f64) -> Frame {
    let (mut low, mut high, mut scale) = ([f64::INFINITY; 2], [f64::NEG_INFINITY; 2], 1f64);
    for t in mesh.chunks_exact(9) {
        for k in 0..2 {
            low[k] = low[k].min_of(t[k].min_of(t[k + 3]).min_of(t[k + 6]));
            high[k] = high[k].max_of(t[k].max_of(t[k + 3]).max_of(t[k + 6]));
        }
        scale = t.iter().fold(scale, |m, v| m.max_of(v.abs()));
    }
    let span = (high[0] - low[0]).max_of(high[1] - low[1]).max_of(r);
    let n = (mesh.len() / 9) as f64;
    let cell = (span / n.sqrt().max_of(1.)).max_of(r / 4.).max_of(1e-6);
    let cells = |k: usize| ((high[k] - low[k]) / cell).floor() as usize + 1;
    Frame { measures: [low[0], low[1], cell, floor, 1e-12 * scale, r], columns: cells(0), rows: cells(1) }
}

/// The builder's refusal, or 0 and the frame.
pub fn build(mesh: &[f64], floor: f64, r: f64, starts: usize, members: usize, boxes: usize) -> Result<Frame, u32> {
    let n = mesh.len() / 9;
    if mesh.len() % 9 != 0 || n > MOST {
        return Err(1);
    }
    if boxes != 5 * n {
        return Err(23);
    }
    if n == 0 {
        return Err(3);
    }
    if !radius(r) || !within(floor, 1e6) {
        return Err(2);
    }
    if mesh.iter().any(|v| !within(*v, 1e6)) {
        return Err(4);
    }
    let frame = frame(mesh, floor, r);
    let cells = frame.columns * frame.rows;
    if frame.columns > 65_536 || frame.rows > 65_536 || cells > 1_048_576 || cells + 1 > starts {
        return Err(5);
    }
    let total: usize = covers(mesh, &frame).iter().map(|c| (c[1] + 1 - c[0]) * (c[3] + 1 - c[2])).sum();
    if total > 16_777_216 || total > members {
        return Err(6);
    }
    Ok(frame)
}

/// The first number of the mesh that refusal 4 is about: its triangle, and which of the nine it is.
pub fn first_bad(mesh: &[f64]) -> [u32; 2] {
    let k = mesh.iter().position(|v| !within(*v, 1e6)).unwrap() as u32;
    [k / 9, k % 9]
}

/// Whether a header is in its ranges.
pub fn header_in_ranges(h: &Handed) -> bool {
    let [x, y, cell, floor, eps, r] = h.measures;
    let [n, columns, rows] = h.sizes.map(|s| s as usize);
    (1..=MOST).contains(&n)
        && [x, y, floor].iter().all(|v| within(*v, 1e6))
        && (1e-6..=2e6).contains(&cell)
        && 0. < eps
        && eps <= 2e-6
        && radius(r)
        && (1..=65_536).contains(&columns)
        && (1..=65_536).contains(&rows)
        && columns * rows <= 1_048_576
}

/// Whether the header and starts stand: refusal 7's first part.
fn header_stands(mesh: &[f64], h: &Handed) -> bool {
    let [n, columns, rows] = h.sizes.map(|s| s as usize);
    header_in_ranges(h) && n == mesh.len() / 9 && h.starts.len() > columns * rows
}

/// The cells of a question, row by row; none if it lies outside.
fn cells(h: &Handed, a: &Asked) -> Vec<usize> {
    let reach = reach(a);
    let span = |k: usize| {
        let low = ((a.p[k].min_of(a.q[k]) - reach - h.measures[k]) / h.measures[2]).floor();
        let high = ((a.p[k].max_of(a.q[k]) + reach - h.measures[k]) / h.measures[2]).floor();
        let count = h.sizes[k + 1] as f64;
        if high < 0. || low >= count {
            return 0..0;
        }
        low.max_of(0.) as usize..high.min_of(count - 1.) as usize + 1
    };
    let columns = h.sizes[1] as usize;
    span(1).flat_map(|y| span(0).map(move |x| y * columns + x)).collect()
}

/// Refusal 7 for these cells: stretches, members, coordinates, box numbers and, where a stamp is handed, marks.
fn stretches_stand(mesh: &[f64], h: &Handed, cells: &[usize], marks: Option<(&[u32], u32)>) -> bool {
    cells.iter().all(|c| {
        let (from, to) = (h.starts[*c] as usize, h.starts[*c + 1] as usize);
        from <= to
            && to <= h.members.len()
            && h.members[from..to].iter().all(|i| {
                let i = *i as usize;
                i < mesh.len() / 9
                    && mesh[9 * i..9 * i + 9].iter().chain(&h.boxes[5 * i..5 * i + 5]).all(|v| within(*v, 1e6))
                    && marks.is_none_or(|(marks, stamp)| marks[i] <= stamp)
            })
    })
}

pub fn section_stands(s: &[f64]) -> bool {
    let [z0, r0, r1, rise] = [s[0], s[1], s[2], s[3]];
    (0. ..=1e6).contains(&z0) && 0. <= r0 && r0 <= r1 && 0. < r1 && r1 <= 1e6 && (0. ..=1e9).contains(&rise)
}

/// Refusal 8 for a tool of sections.
pub fn sections_stand(table: &[f64]) -> bool {
    !table.is_empty() && table.len() % 4 == 0 && table.len() / 4 <= 32 && table.chunks_exact(4).all(section_stands)
}

/// A question's two ends (x, y, z; a swept disk and a point have no z), its radius and corner radius, or its sections.
#[derive(Default)]
pub struct Asked<'a> {
    pub p: [f64; 3],
    pub q: [f64; 3],
    pub radius: f64,
    pub corner: f64,
    pub lift: f64,
    pub sections: Option<&'a [f64]>,
}

/// A question's refusal, or 0.
pub fn question(mesh: &[f64], h: &Handed, marks: &[u32], stamp: u32, a: &Asked) -> u32 {
    let n = mesh.len() / 9;
    if mesh.len() % 9 != 0 || n > MOST || marks.len() != n {
        return 1;
    }
    if h.boxes.len() != 5 * n {
        return 23;
    }
    if a.p.iter().chain(&a.q).any(|v| !within(*v, 3e6)) || !radius(a.radius) || !within(a.lift, 1e6) {
        return 2;
    }
    if !(0. <= a.corner && a.corner <= a.radius) || a.sections.is_some_and(|s| !sections_stand(s)) {
        return 8;
    }
    if !header_stands(mesh, h) || !stretches_stand(mesh, h, &cells(h, a), Some((marks, stamp))) {
        return 7;
    }
    0
}

/// The radius, or the largest r1.
fn reach(a: &Asked) -> f64 {
    match a.sections {
        Some(s) => s.chunks_exact(4).map(|s| s[2]).fold(0., f64::max_of),
        None => a.radius,
    }
}

/// A plan's refusal before it begins (1, 23, 9, 7), or 0.
pub fn plan(mesh: &[f64], h: &Handed, marks: &[u32], parameters: &[f64; 7], axis: u32) -> u32 {
    let n = mesh.len() / 9;
    if mesh.len() % 9 != 0 || n > MOST || marks.len() != n {
        return 1;
    }
    if h.boxes.len() != 5 * n {
        return 23;
    }
    let [tolerance, level, stepover, leave, bottom, top, cutting] = *parameters;
    let (floor, r) = (h.measures[3], h.measures[5]);
    let stands = [tolerance, level, stepover, leave, bottom, top, cutting].iter().all(|v| within(*v, 1e6))
        && (1e-7..=0.01).contains(&tolerance)
        && 16. * tolerance < stepover
        && stepover <= 2. * r
        && leave >= 0.
        && tolerance <= level
        && level <= 0.1
        && bottom <= floor
        && floor < top
        && axis < 2;
    if !stands {
        return 9;
    }
    if whole(mesh, h) { 0 } else { 7 }
}

/// What refusal 7 tests of a plan and of a list of moves: every cell and every triangle, and no mark.
pub fn whole(mesh: &[f64], h: &Handed) -> bool {
    let all = || (0..(h.sizes[1] * h.sizes[2]) as usize).collect::<Vec<_>>();
    header_stands(mesh, h) && stretches_stand(mesh, h, &all(), None) && mesh.iter().chain(&h.boxes).all(|v| within(*v, 1e6))
}

/// A job as document 01 lays it out: floor, radius, mesh, questions; or the reader's refusal with the count that it tells, 0 but
/// with 19.
pub fn job(bytes: &[u8], mesh_room: usize, question_room: usize) -> Result<(f64, f64, Vec<f64>, Vec<f64>), (u32, u32)> {
    if bytes.len() < 30 {
        return Err((14, 0));
    }
    if &bytes[..3] != b"FTM" {
        return Err((15, 0));
    }
    if u16::from_le_bytes([bytes[3], bytes[4]]) != 1 {
        return Err((16, 0));
    }
    if bytes[5] != 0 {
        return Err((17, 0));
    }
    let word = |at: usize| u32::from_le_bytes(bytes[at..at + 4].try_into().unwrap()) as usize;
    let (n, m) = (word(6), word(10));
    if n == 0 || n > MOST || m > MOST || n > mesh_room / 9 || m > question_room / 5 {
        return Err((18, 0));
    }
    let (has, asks) = (bytes.len(), 30 + 72 * n + 40 * m);
    if has < asks {
        return Err((19, n.min((has - 30) / 72) as u32));
    }
    if has > asks {
        return Err((21, 0));
    }
    let numbers: Vec<f64> = bytes[14..].chunks_exact(8).map(|b| f64::from_le_bytes(b.try_into().unwrap())).collect();
    if numbers.iter().any(|x| !x.is_finite()) {
        return Err((20, 0));
    }
    Ok((numbers[0], numbers[1], numbers[2..2 + 9 * n].to_vec(), numbers[2 + 9 * n..].to_vec()))
}

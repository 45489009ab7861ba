//! The planner's C functions (include/mandrikelo.h), each called with guard words around what is lent.

pub mod raw {
    #[allow(clashing_extern_declarations)]
    unsafe extern "C" {
        pub fn mandrikelo_root(x: f64) -> f64;
        pub fn mandrikelo_round_down(x: f64) -> f64;
        pub fn mandrikelo_round_up(x: f64) -> f64;
        pub fn mandrikelo_max(x: f64, y: f64) -> f64;
        pub fn mandrikelo_min(x: f64, y: f64) -> f64;
        pub fn mandrikelo_clamp_unit(x: f64) -> f64;
        pub fn mandrikelo_hypot(x: f64, y: f64) -> f64;
        pub fn mandrikelo_total_less(x: f64, y: f64) -> bool;
        pub fn mandrikelo_dist2_to_segment(x0: f64, x1: f64, p0: f64, p1: f64, q0: f64, q1: f64) -> f64;
        pub fn mandrikelo_distance_xy(triangle: *const f64, x: f64, y: f64) -> f64;
        pub fn mandrikelo_bull_profile(d: f64, r: f64, rc: f64) -> f64;
        pub fn mandrikelo_max_in_capsule(
            triangle: *const f64, px: f64, py: f64, qx: f64, qy: f64, r: f64, eps: f64, height: *mut f64, touched: *mut u32,
        ) -> bool;
        pub fn mandrikelo_bull_contact(
            triangle: *const f64, px: f64, py: f64, r: f64, rc: f64, floor: f64, height: *mut f64, touched: *mut u32,
        ) -> bool;
        pub fn mandrikelo_section_contact(
            triangle: *const f64, px: f64, py: f64, section: *const f64, height: *mut f64, touched: *mut u32,
        ) -> bool;
        pub fn mandrikelo_build(
            mesh: *const f64, mesh_len: usize, floor: f64, r: f64, starts: *mut u32, starts_len: usize, members: *mut u32,
            members_len: usize, boxes: *mut f64, boxes_len: usize, measures: *mut f64, sizes: *mut u32, bad: *mut u32,
        ) -> u32;
        pub fn mandrikelo_max_height(
            mesh: *const f64, mesh_len: usize, measures: *const f64, sizes: *const u32, starts: *const u32, starts_len: usize,
            members: *const u32, members_len: usize, boxes: *const f64, boxes_len: usize, marks: *mut u32, marks_len: usize, stamp: u32, px: f64, py: f64, qx: f64,
            qy: f64, r: f64, found: *mut f64, counts: *mut u32, touched: *mut u32,
        ) -> u32;
        pub fn mandrikelo_max_bull(
            mesh: *const f64, mesh_len: usize, measures: *const f64, sizes: *const u32, starts: *const u32, starts_len: usize,
            members: *const u32, members_len: usize, boxes: *const f64, boxes_len: usize, marks: *mut u32, marks_len: usize, stamp: u32, px: f64, py: f64, r: f64,
            rc: f64, found: *mut f64, counts: *mut u32, touched: *mut u32,
        ) -> u32;
        pub fn mandrikelo_max_sections(
            mesh: *const f64, mesh_len: usize, measures: *const f64, sizes: *const u32, starts: *const u32, starts_len: usize,
            members: *const u32, members_len: usize, boxes: *const f64, boxes_len: usize, marks: *mut u32, marks_len: usize, stamp: u32, px: f64, py: f64,
            sections: *const f64, sections_len: usize, found: *mut f64, counts: *mut u32, touched: *mut u32,
        ) -> u32;
        pub fn mandrikelo_bull_chord_clear(
            mesh: *const f64, mesh_len: usize, measures: *const f64, sizes: *const u32, starts: *const u32, starts_len: usize,
            members: *const u32, members_len: usize, boxes: *const f64, boxes_len: usize, marks: *mut u32, marks_len: usize, stamp: u32, ax: f64, ay: f64, az: f64,
            bx: f64, by: f64, bz: f64, r: f64, rc: f64, lift: f64, counts: *mut u32,
        ) -> u32;
        pub fn mandrikelo_sections_chord_clear(
            mesh: *const f64, mesh_len: usize, measures: *const f64, sizes: *const u32, starts: *const u32, starts_len: usize,
            members: *const u32, members_len: usize, boxes: *const f64, boxes_len: usize, marks: *mut u32, marks_len: usize, stamp: u32, ax: f64, ay: f64, az: f64,
            bx: f64, by: f64, bz: f64, lift: f64, sections: *const f64, sections_len: usize, counts: *mut u32,
        ) -> u32;
        pub fn mandrikelo_plan(
            mesh: *const f64, mesh_len: usize, measures: *const f64, sizes: *const u32, starts: *const u32, starts_len: usize,
            members: *const u32, members_len: usize, boxes: *const f64, boxes_len: usize, marks: *mut u32, marks_len: usize, parameters: *const f64, axis: u32,
            levels: *mut f64, levels_len: usize, runs: *mut f64, runs_len: usize, lengths: *mut f64, counts: *mut u32,
        ) -> u32;
        pub fn mandrikelo_read_job(
            bytes: *const u8, bytes_len: usize, mesh: *mut f64, mesh_len: usize, questions: *mut f64, questions_len: usize,
            measures: *mut f64, sizes: *mut u32,
        ) -> u32;
    }
}
use raw::*;

/// What a guard word and a cleared result hold before a call.
pub trait Word: Copy {
    const GUARD: Self;
    fn same(self, other: Self) -> bool;
}
impl Word for f64 {
    const GUARD: f64 = f64::from_bits(0x5a5a_5a5a_5a5a_5a5a);
    fn same(self, other: f64) -> bool {
        self.to_bits() == other.to_bits()
    }
}
impl Word for u32 {
    const GUARD: u32 = 0x5a5a_5a5a;
    fn same(self, other: u32) -> bool {
        self == other
    }
}
impl Word for u64 {
    const GUARD: u64 = 0x5a5a_5a5a_5a5a_5a5a;
    fn same(self, other: u64) -> bool {
        self == other
    }
}
impl Word for u8 {
    const GUARD: u8 = 0x5a;
    fn same(self, other: u8) -> bool {
        self == other
    }
}

const WIDE: usize = 4;

/// A lent table with guard words before and after it.
#[derive(Clone)]
pub struct Lent<T: Word>(Vec<T>);

impl<T: Word> Lent<T> {
    pub fn new(table: &[T]) -> Self {
        let mut all = Vec::with_capacity(table.len() + 2 * WIDE);
        all.extend([T::GUARD; WIDE]);
        all.extend_from_slice(table);
        all.extend([T::GUARD; WIDE]);
        Lent(all)
    }
    pub fn room(length: usize, fill: T) -> Self {
        Lent::new(&vec![fill; length])
    }
    pub fn get(&self) -> &[T] {
        &self.0[WIDE..self.0.len() - WIDE]
    }
    pub fn len(&self) -> usize {
        self.0.len() - 2 * WIDE
    }
    pub fn at(&mut self) -> *mut T {
        // The address is the whole table's, so that a write over its end would meet the guard.
        unsafe { self.0.as_mut_ptr().add(WIDE) }
    }
    pub fn intact(&self) -> bool {
        let n = self.0.len();
        self.0[..WIDE].iter().chain(&self.0[n - WIDE..]).all(|w| w.same(T::GUARD))
    }
    pub fn holds(&self, table: &[T]) -> bool {
        self.len() == table.len() && self.get().iter().zip(table).all(|(a, b)| a.same(*b))
    }
}

/// A mesh's index as handed over: measures (origin x, origin y, cell, floor, eps, r), sizes (n, columns, rows) and tables.
#[derive(Clone)]
pub struct Handed {
    pub measures: [f64; 6],
    pub sizes: [u32; 3],
    pub starts: Vec<u32>,
    pub members: Vec<u32>,
    pub boxes: Vec<f64>,
}

pub struct Built {
    pub refusal: u32,
    pub measures: Lent<f64>,
    pub sizes: Lent<u32>,
    /// After 4 the triangle and which of its nine numbers.
    pub bad: Lent<u32>,
}

pub fn build(
    mesh: &[f64], floor: f64, r: f64, starts: &mut Lent<u32>, members: &mut Lent<u32>, boxes: &mut Lent<f64>,
) -> Built {
    let mut measures = Lent::room(6, f64::GUARD);
    let (mut sizes, mut bad) = (Lent::room(3, u32::GUARD), Lent::room(2, u32::GUARD));
    let refusal = unsafe {
        mandrikelo_build(
            mesh.as_ptr(), mesh.len(), floor, r, starts.at(), starts.len(), members.at(), members.len(), boxes.at(), boxes.len(),
            measures.at(), sizes.at(), bad.at(),
        )
    };
    Built { refusal, measures, sizes, bad }
}

/// An answer with a height (verdict 0) or a verdict (height 0).
#[derive(Clone, Copy, Debug)]
pub struct Answer {
    pub refusal: u32,
    pub height: f64,
    pub verdict: u32,
    pub count: u32,
    pub stamp: u32,
    /// Of a height: the triangle that last raised it, kind and which; all 0 of a verdict.
    pub touched: [u32; 3],
    pub intact: bool,
}

/// What a height question is lent for its answer.
struct Room {
    height: Lent<f64>,
    counts: Lent<u32>,
    touched: Lent<u32>,
}

impl Room {
    fn new() -> Self {
        Room { height: Lent::room(1, f64::GUARD), counts: Lent::room(2, u32::GUARD), touched: Lent::room(3, u32::GUARD) }
    }
}

fn with_height(marks: &Lent<u32>, refusal: u32, room: Room) -> Answer {
    let intact = marks.intact() && room.height.intact() && room.counts.intact() && room.touched.intact();
    let (counts, t) = (room.counts.get(), room.touched.get());
    Answer { refusal, height: room.height.get()[0], verdict: 0, count: counts[0], stamp: counts[1], touched: [t[0], t[1], t[2]], intact }
}

fn with_verdict(marks: &Lent<u32>, refusal: u32, counts: Lent<u32>) -> Answer {
    let intact = marks.intact() && counts.intact();
    let c = counts.get();
    Answer { refusal, height: 0., verdict: c[0], count: c[1], stamp: c[2], touched: [0; 3], intact }
}

pub fn max_height(mesh: &[f64], h: &Handed, marks: &mut Lent<u32>, stamp: u32, q: &[f64]) -> Answer {
    let mut room = Room::new();
    let refusal = unsafe {
        mandrikelo_max_height(
            mesh.as_ptr(), mesh.len(), h.measures.as_ptr(), h.sizes.as_ptr(), h.starts.as_ptr(), h.starts.len(),
            h.members.as_ptr(), h.members.len(), h.boxes.as_ptr(), h.boxes.len(), marks.at(), marks.len(), stamp, q[0], q[1], q[2], q[3], q[4], room.height.at(), room.counts.at(),
            room.touched.at(),
        )
    };
    with_height(marks, refusal, room)
}

pub fn max_bull(mesh: &[f64], h: &Handed, marks: &mut Lent<u32>, stamp: u32, q: &[f64]) -> Answer {
    let mut room = Room::new();
    let refusal = unsafe {
        mandrikelo_max_bull(
            mesh.as_ptr(), mesh.len(), h.measures.as_ptr(), h.sizes.as_ptr(), h.starts.as_ptr(), h.starts.len(),
            h.members.as_ptr(), h.members.len(), h.boxes.as_ptr(), h.boxes.len(), marks.at(), marks.len(), stamp, q[0], q[1], q[2], q[3], room.height.at(), room.counts.at(),
            room.touched.at(),
        )
    };
    with_height(marks, refusal, room)
}

pub fn max_sections(mesh: &[f64], h: &Handed, marks: &mut Lent<u32>, stamp: u32, q: &[f64], sections: &[f64]) -> Answer {
    let mut room = Room::new();
    let refusal = unsafe {
        mandrikelo_max_sections(
            mesh.as_ptr(), mesh.len(), h.measures.as_ptr(), h.sizes.as_ptr(), h.starts.as_ptr(), h.starts.len(),
            h.members.as_ptr(), h.members.len(), h.boxes.as_ptr(), h.boxes.len(), marks.at(), marks.len(), stamp, q[0], q[1], sections.as_ptr(), sections.len(),
            room.height.at(), room.counts.at(),
            room.touched.at(),
        )
    };
    with_height(marks, refusal, room)
}

pub fn bull_chord_clear(mesh: &[f64], h: &Handed, marks: &mut Lent<u32>, stamp: u32, q: &[f64]) -> Answer {
    let mut counts = Lent::room(3, u32::GUARD);
    let refusal = unsafe {
        mandrikelo_bull_chord_clear(
            mesh.as_ptr(), mesh.len(), h.measures.as_ptr(), h.sizes.as_ptr(), h.starts.as_ptr(), h.starts.len(),
            h.members.as_ptr(), h.members.len(), h.boxes.as_ptr(), h.boxes.len(), marks.at(), marks.len(), stamp, q[0], q[1], q[2], q[3], q[4], q[5], q[6], q[7],
            q[8], counts.at(),
        )
    };
    with_verdict(marks, refusal, counts)
}

pub fn sections_chord_clear(mesh: &[f64], h: &Handed, marks: &mut Lent<u32>, stamp: u32, q: &[f64], sections: &[f64]) -> Answer {
    let mut counts = Lent::room(3, u32::GUARD);
    let refusal = unsafe {
        mandrikelo_sections_chord_clear(
            mesh.as_ptr(), mesh.len(), h.measures.as_ptr(), h.sizes.as_ptr(), h.starts.as_ptr(), h.starts.len(),
            h.members.as_ptr(), h.members.len(), h.boxes.as_ptr(), h.boxes.len(), marks.at(), marks.len(), stamp, q[0], q[1], q[2], q[3], q[4], q[5], q[6],
            sections.as_ptr(), sections.len(), counts.at(),
        )
    };
    with_verdict(marks, refusal, counts)
}

pub struct Planned {
    pub refusal: u32,
    pub lengths: [f64; 2],
    /// Levels, rows, runs.
    pub counts: [u32; 3],
    pub intact: bool,
}

pub fn plan(
    mesh: &[f64], h: &Handed, marks: &mut Lent<u32>, parameters: &[f64; 7], axis: u32, levels: &mut Lent<f64>,
    runs: &mut Lent<f64>,
) -> Planned {
    let (mut lengths, mut counts) = (Lent::room(2, f64::GUARD), Lent::room(3, u32::GUARD));
    let refusal = unsafe {
        mandrikelo_plan(
            mesh.as_ptr(), mesh.len(), h.measures.as_ptr(), h.sizes.as_ptr(), h.starts.as_ptr(), h.starts.len(),
            h.members.as_ptr(), h.members.len(), h.boxes.as_ptr(), h.boxes.len(), marks.at(), marks.len(), parameters.as_ptr(), axis, levels.at(), levels.len(),
            runs.at(), runs.len(), lengths.at(), counts.at(),
        )
    };
    let intact = marks.intact() && levels.intact() && runs.intact() && lengths.intact() && counts.intact();
    let (l, c) = (lengths.get(), counts.get());
    Planned { refusal, lengths: [l[0], l[1]], counts: [c[0], c[1], c[2]], intact }
}

pub struct Job {
    pub refusal: u32,
    /// Floor, radius.
    pub measures: [f64; 2],
    /// Triangles, questions.
    pub sizes: [u32; 2],
    pub intact: bool,
}

pub fn read_job(bytes: &[u8], mesh: &mut Lent<f64>, questions: &mut Lent<f64>) -> Job {
    let (mut measures, mut sizes) = (Lent::room(2, f64::GUARD), Lent::room(2, u32::GUARD));
    let refusal = unsafe {
        mandrikelo_read_job(
            bytes.as_ptr(), bytes.len(), mesh.at(), mesh.len(), questions.at(), questions.len(), measures.at(), sizes.at(),
        )
    };
    let intact = mesh.intact() && questions.intact() && measures.intact() && sizes.intact();
    let (m, s) = (measures.get(), sizes.get());
    Job { refusal, measures: [m[0], m[1]], sizes: [s[0], s[1]], intact }
}

/// A height, and what is touched: kind, and which of three.
pub type Touched = (f64, [u32; 2]);

/// A contact as the Rust tells it, with what is touched.
fn contact(ask: impl FnOnce(*mut f64, *mut u32) -> bool) -> Result<Option<Touched>, String> {
    let (mut height, mut touched) = (Lent::room(1, f64::GUARD), Lent::room(2, u32::GUARD));
    let found = ask(height.at(), touched.at());
    if !height.intact() || !touched.intact() {
        return Err("a guard word beside the height or the touch was changed".into());
    }
    let (z, t) = (height.get()[0], [touched.get()[0], touched.get()[1]]);
    match found {
        true => Ok(Some((z, t))),
        false if z.to_bits() == 0 && t == [0, 0] => Ok(None),
        false => Err(format!("no contact, but height {z:?} and touch {t:?}")),
    }
}

pub fn max_in_capsule(t: &[f64], q: &[f64]) -> Result<Option<Touched>, String> {
    contact(|z, on| unsafe { mandrikelo_max_in_capsule(t.as_ptr(), q[0], q[1], q[2], q[3], q[4], q[5], z, on) })
}

pub fn bull_contact(t: &[f64], q: &[f64]) -> Result<Option<Touched>, String> {
    contact(|z, on| unsafe { mandrikelo_bull_contact(t.as_ptr(), q[0], q[1], q[2], q[3], q[4], z, on) })
}

pub fn section_contact(t: &[f64], p: &[f64], section: &[f64]) -> Result<Option<Touched>, String> {
    contact(|z, on| unsafe { mandrikelo_section_contact(t.as_ptr(), p[0], p[1], section.as_ptr(), z, on) })
}

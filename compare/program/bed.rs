//! A part to be asked: its index on each side, the cutters, the questions, and the clock that they are timed with.

use crate::doors::{Handed, raw};
use oracle_doc::flat::door as doc;
use oracle_shipped::flat::door as shipped;
use std::hint::black_box;

#[repr(C)]
struct Timespec {
    seconds: i64,
    nanoseconds: i64,
}

unsafe extern "C" {
    fn clock_gettime(clock: i32, time: *mut Timespec) -> i32;
}

/// Nanoseconds that this thread has had of a processor: what else runs on the machine does not count.
pub fn now() -> f64 {
    let mut time = Timespec { seconds: 0, nanoseconds: 0 };
    unsafe { clock_gettime(3, &mut time) };
    time.seconds as f64 * 1e9 + time.nanoseconds as f64
}

/// Nanoseconds a call of each, the median of rounds in which they take turns; each closure makes `calls` calls. Rounds go on until `rounds` are done
/// and `spend` nanoseconds are gone; the first warms up.
pub fn medians<const N: usize>(rounds: usize, spend: f64, calls: usize, each: [&mut dyn FnMut(); N]) -> [f64; N] {
    let mut times = [const { vec![] }; N];
    let first = now();
    let mut round = 0;
    while round <= rounds || now() - first < spend {
        for k in 0..N {
            let begun = now();
            each[k]();
            if round > 0 {
                times[k].push((now() - begun) / calls as f64);
            }
        }
        round += 1;
    }
    times.map(|mut t| {
        t.sort_by(f64::total_cmp);
        t[t.len() / 2]
    })
}

#[derive(Clone, Copy, PartialEq, Debug)]
pub enum Kind {
    Height,
    Bull,
    Sections,
    BullChord,
    SectionsChord,
}

impl Kind {
    /// The C function that answers it.
    pub fn door(self) -> &'static str {
        match self {
            Kind::Height => "max_height",
            Kind::Bull => "max_bull",
            Kind::Sections => "max_sections",
            Kind::BullChord => "bull_chord_clear",
            Kind::SectionsChord => "sections_chord_clear",
        }
    }
}

/// From here to there; a height knows no z, and a point is a line's two ends.
#[derive(Clone, Copy)]
pub struct Asked(pub [f64; 3], pub [f64; 3]);

/// Marks and stamp of one side.
#[derive(Clone)]
pub struct Seen {
    pub marks: Vec<u32>,
    pub stamp: u32,
}

/// A part, its floor, a cutter's radius and corner radius, a tool of three sections, and what lies on each side of it.
pub struct Bed {
    pub mesh: Vec<f64>,
    pub floor: f64,
    pub r: f64,
    rc: f64,
    table: [f64; 12],
    pub handed: Handed,
    pub shipped: shipped::Grid,
    pub doc: doc::Grid,
    tools: (shipped::Tool, doc::Tool),
}

/// One question of ours over the bed; `$more` are the question's own arguments.
#[macro_export]
macro_rules! ask {
    ($bed:expr, $door:ident, $marks:expr, $stamp:expr, $($more:expr),* $(; $touched:expr)?) => {{
        let h = &$bed.handed;
        let mut counts = [0u32; 3];
        unsafe {
            raw::$door(
                $bed.mesh.as_ptr(), $bed.mesh.len(), h.measures.as_ptr(), h.sizes.as_ptr(), h.starts.as_ptr(), h.starts.len(),
                h.members.as_ptr(), h.members.len(), h.boxes.as_ptr(), h.boxes.len(), $marks.as_mut_ptr(), $marks.len(), $stamp, $($more,)*
                counts.as_mut_ptr(), $($touched,)?
            )
        };
        counts
    }};
}

/// The Rust's answer, of either build; a verdict is 1 where the chord is clear.
macro_rules! theirs {
    ($bed:expr, $grid:expr, $tool:expr, $kind:expr, $q:expr, $seen:expr) => {{
        let (Asked(a, b), seen, stamp) = ($q, &mut $seen.marks, &mut $seen.stamp);
        match $kind {
            Kind::Height => $grid.max_height([a[0], a[1]], [b[0], b[1]], $bed.r, seen, stamp),
            Kind::Bull => $grid.max_bull([a[0], a[1]], $bed.r, $bed.rc, seen, stamp),
            Kind::Sections => $grid.max_sections([a[0], a[1]], &$tool, seen, stamp),
            Kind::BullChord => $grid.bull_chord_clear(*a, *b, $bed.r, $bed.rc, 0., seen, stamp) as u32 as f64,
            Kind::SectionsChord => $grid.sections_chord_clear(*a, *b, &$tool, 0., seen, stamp) as u32 as f64,
        }
    }};
}

impl Bed {
    pub fn new(mesh: Vec<f64>, floor: f64, r: f64) -> Bed {
        let (_, handed) = crate::build::handed(&mesh, floor, r).unwrap();
        let shipped = shipped::Grid::new(&shipped::surface(&mesh), floor, r).unwrap();
        let doc = doc::Grid::new(&doc::surface(&mesh), floor, r).unwrap();
        let table = [0., 1., 2., 1., 4., 2.5, 2.5, 0., 12., 3., 5., 2.].map(|x: f64| x * r / 3.);
        // A rise is a slope.
        let table: [f64; 12] = std::array::from_fn(|k| if k % 4 == 3 { [1., 0., 2.][k / 4] } else { table[k] });
        let tools = (shipped::Tool::new(&table), doc::Tool::new(&table));
        Bed { mesh, floor, r, rc: r / 3., table, handed, shipped, doc, tools }
    }

    pub fn seen(&self) -> Seen {
        Seen { marks: vec![0; self.mesh.len() / 9], stamp: 0 }
    }

    /// The height or verdict, and how many triangles were looked at.
    pub fn ours(&self, kind: Kind, q: &Asked, seen: &mut Seen) -> (f64, u32) {
        let (Asked(a, b), mut z, mut on, stamp) = (q, 0., [0; 3], seen.stamp);
        let (r, rc, table) = (self.r, self.rc, &self.table);
        let counts = match kind {
            Kind::Height => ask!(self, mandrikelo_max_height, seen.marks, stamp, a[0], a[1], b[0], b[1], r, &mut z; on.as_mut_ptr()),
            Kind::Bull => ask!(self, mandrikelo_max_bull, seen.marks, stamp, a[0], a[1], r, rc, &mut z; on.as_mut_ptr()),
            Kind::Sections => {
                ask!(self, mandrikelo_max_sections, seen.marks, stamp, a[0], a[1], table.as_ptr(), table.len(), &mut z; on.as_mut_ptr())
            }
            Kind::BullChord => ask!(self, mandrikelo_bull_chord_clear, seen.marks, stamp, a[0], a[1], a[2], b[0], b[1], b[2], r, rc, 0.),
            Kind::SectionsChord => ask!(
                self, mandrikelo_sections_chord_clear, seen.marks, stamp, a[0], a[1], a[2], b[0], b[1], b[2], 0., table.as_ptr(), table.len()
            ),
        };
        black_box(on);
        if let Kind::BullChord | Kind::SectionsChord = kind {
            seen.stamp = counts[2];
            ((counts[0] == 1) as u32 as f64, counts[1])
        } else {
            seen.stamp = counts[1];
            (z, counts[0])
        }
    }

    pub fn as_shipped(&self, kind: Kind, q: &Asked, seen: &mut Seen) -> f64 {
        theirs!(self, self.shipped, self.tools.0, kind, q, seen)
    }

    pub fn as_doc(&self, kind: Kind, q: &Asked, seen: &mut Seen) -> f64 {
        theirs!(self, self.doc, self.tools.1, kind, q, seen)
    }

    /// The least and the greatest of the part's three coordinates.
    pub fn reach(&self) -> ([f64; 3], [f64; 3]) {
        let (mut low, mut high) = ([f64::INFINITY; 3], [f64::NEG_INFINITY; 3]);
        for v in self.mesh.chunks_exact(3) {
            for k in 0..3 {
                (low[k], high[k]) = (low[k].min(v[k]), high[k].max(v[k]));
            }
        }
        (low, high)
    }
}

/// Room for an index as large as the bed's own, and for a plan: what is lent again and again.
pub struct Room {
    starts: Vec<u32>,
    members: Vec<u32>,
    boxes: Vec<f64>,
    marks: Vec<u32>,
    levels: Vec<f64>,
    runs: Vec<f64>,
    measures: [f64; 6],
    sizes: [u32; 3],
}

impl Room {
    pub fn new(bed: &Bed) -> Room {
        let h = &bed.handed;
        let marks = vec![0; bed.mesh.len() / 9];
        let (levels, runs) = (vec![0.; 500], vec![0.; 100_000]);
        Room { starts: h.starts.clone(), members: h.members.clone(), boxes: h.boxes.clone(), marks, levels, runs, measures: [0.; 6], sizes: [0; 3] }
    }

    pub fn build(&mut self, bed: &Bed) -> u32 {
        let mut bad = [0; 2];
        unsafe {
            raw::mandrikelo_build(
                bed.mesh.as_ptr(), bed.mesh.len(), bed.floor, bed.r, self.starts.as_mut_ptr(), self.starts.len(), self.members.as_mut_ptr(),
                self.members.len(), self.boxes.as_mut_ptr(), self.boxes.len(), self.measures.as_mut_ptr(), self.sizes.as_mut_ptr(), bad.as_mut_ptr(),
            )
        }
    }

    /// camlib's plan builds its index too. The refusal, then levels, rows and runs.
    pub fn build_and_plan(&mut self, bed: &Bed, parameters: &[f64; 7]) -> (u32, [u32; 3]) {
        let (mut counts, mut lengths) = ([0; 3], [0.; 2]);
        self.build(bed);
        let refusal = unsafe {
            raw::mandrikelo_plan(
                bed.mesh.as_ptr(), bed.mesh.len(), self.measures.as_ptr(), self.sizes.as_ptr(), self.starts.as_ptr(), self.starts.len(),
                self.members.as_ptr(), self.members.len(), self.boxes.as_ptr(), self.boxes.len(), self.marks.as_mut_ptr(), self.marks.len(),
                parameters.as_ptr(), 0, self.levels.as_mut_ptr(), self.levels.len(), self.runs.as_mut_ptr(), self.runs.len(), lengths.as_mut_ptr(),
                counts.as_mut_ptr(),
            )
        };
        black_box(lengths);
        (refusal, counts)
    }
}

//! The C door of the archive, and the only module of this crate with `unsafe` in it.
//!
//! Every function here lends slices and fixed arrays to the function of the same name that `include/mandrikelo.h` declares, and
//! gives back what it answered. The header's conditions are met by Rust's own rules: a slice is a pointer that is not null and its
//! length, a `&mut` overlaps nothing, and a fixed array has the length that stands in its type. The planner keeps nothing.
#![allow(clippy::too_many_arguments)]

mod c {
    extern "C" {
        pub fn mandrikelo_build(
            mesh: *const f64, mesh_len: usize, floor: f64, r: f64,
            starts: *mut u32, starts_len: usize, members: *mut u32, members_len: usize,
            boxes: *mut f64, boxes_len: usize,
            measures: *mut [f64; 6], sizes: *mut [u32; 3], bad: *mut [u32; 2],
        ) -> u32;
        pub fn mandrikelo_raise(
            mesh: *mut f64, mesh_len: usize, boxes: *mut f64, boxes_len: usize, measures: *const [f64; 6], sizes: *const [u32; 3],
            amount: f64, raised: *mut [f64; 6], raised_sizes: *mut [u32; 3], bad: *mut [u32; 2],
        ) -> u32;
        pub fn mandrikelo_max_height(
            mesh: *const f64, mesh_len: usize, measures: *const [f64; 6], sizes: *const [u32; 3],
            starts: *const u32, starts_len: usize, members: *const u32, members_len: usize,
            boxes: *const f64, boxes_len: usize,
            marks: *mut u32, marks_len: usize, stamp: u32,
            px: f64, py: f64, qx: f64, qy: f64, r: f64,
            found: *mut [f64; 1], counts: *mut [u32; 2], touched: *mut [u32; 3],
        ) -> u32;
        pub fn mandrikelo_max_bull(
            mesh: *const f64, mesh_len: usize, measures: *const [f64; 6], sizes: *const [u32; 3],
            starts: *const u32, starts_len: usize, members: *const u32, members_len: usize,
            boxes: *const f64, boxes_len: usize,
            marks: *mut u32, marks_len: usize, stamp: u32,
            px: f64, py: f64, r: f64, rc: f64,
            found: *mut [f64; 1], counts: *mut [u32; 2], touched: *mut [u32; 3],
        ) -> u32;
        pub fn mandrikelo_max_sections(
            mesh: *const f64, mesh_len: usize, measures: *const [f64; 6], sizes: *const [u32; 3],
            starts: *const u32, starts_len: usize, members: *const u32, members_len: usize,
            boxes: *const f64, boxes_len: usize,
            marks: *mut u32, marks_len: usize, stamp: u32,
            px: f64, py: f64, sections: *const f64, sections_len: usize,
            found: *mut [f64; 1], counts: *mut [u32; 2], touched: *mut [u32; 3],
        ) -> u32;
        pub fn mandrikelo_bull_chord_clear(
            mesh: *const f64, mesh_len: usize, measures: *const [f64; 6], sizes: *const [u32; 3],
            starts: *const u32, starts_len: usize, members: *const u32, members_len: usize,
            boxes: *const f64, boxes_len: usize,
            marks: *mut u32, marks_len: usize, stamp: u32,
            ax: f64, ay: f64, az: f64, bx: f64, by: f64, bz: f64, r: f64, rc: f64, lift: f64,
            counts: *mut [u32; 3],
        ) -> u32;
        pub fn mandrikelo_sections_chord_clear(
            mesh: *const f64, mesh_len: usize, measures: *const [f64; 6], sizes: *const [u32; 3],
            starts: *const u32, starts_len: usize, members: *const u32, members_len: usize,
            boxes: *const f64, boxes_len: usize,
            marks: *mut u32, marks_len: usize, stamp: u32,
            ax: f64, ay: f64, az: f64, bx: f64, by: f64, bz: f64, lift: f64,
            sections: *const f64, sections_len: usize,
            counts: *mut [u32; 3],
        ) -> u32;
        pub fn mandrikelo_plan(
            mesh: *const f64, mesh_len: usize, measures: *const [f64; 6], sizes: *const [u32; 3],
            starts: *const u32, starts_len: usize, members: *const u32, members_len: usize,
            boxes: *const f64, boxes_len: usize,
            marks: *mut u32, marks_len: usize,
            parameters: *const [f64; 7], axis: u32,
            levels: *mut f64, levels_len: usize, runs: *mut f64, runs_len: usize,
            lengths: *mut [f64; 2], counts: *mut [u32; 3],
        ) -> u32;
        pub fn mandrikelo_sections_of(
            shape: u32, enclose: bool, neck: bool, measures: *const [f64; 8],
            holders: *const f64, holders_len: usize, sections: *mut f64, sections_len: usize, count: *mut [u32; 1],
        ) -> u32;
        pub fn mandrikelo_moves_begin(
            runs: *const f64, runs_len: usize, heights: *const [f64; 3], start: *const [f64; 3], first_id: u64,
            position: *mut [f64; 3], state: *mut [u64; 3],
        ) -> u32;
        pub fn mandrikelo_moves_next(
            runs: *const f64, runs_len: usize, heights: *const [f64; 3],
            position: *mut [f64; 3], state: *mut [u64; 3], end: *mut [f64; 3], go: *mut [u64; 2],
        ) -> u32;
        pub fn mandrikelo_read_job(
            bytes: *const u8, bytes_len: usize, mesh: *mut f64, mesh_len: usize, questions: *mut f64, questions_len: usize,
            measures: *mut [f64; 2], sizes: *mut [u32; 2],
        ) -> u32;
        pub fn mandrikelo_read_job_um(
            bytes: *const u8, bytes_len: usize, mesh: *mut i32, mesh_len: usize, questions: *mut i32, questions_len: usize,
            measures: *mut [i32; 2], sizes: *mut [u32; 2],
        ) -> u32;
        pub fn mandrikelo_build_um(
            mesh: *const i32, mesh_len: usize, floor: i32, r: i32, starts: *mut u32, starts_len: usize,
            members: *mut u32, members_len: usize, measures: *mut [i32; 4], sizes: *mut [u32; 4], bad: *mut [u32; 2],
        ) -> u32;
        pub fn mandrikelo_setup_height(
            mesh: *const i32, mesh_len: usize, measures: *const [i32; 4], sizes: *const [u32; 4],
            starts: *const u32, starts_len: usize, members: *const u32, members_len: usize, marks: *mut u32, marks_len: usize,
            stamp: u32, px: i32, py: i32, qx: i32, qy: i32, r: i32, height: *mut [i32; 1], counts: *mut [u32; 3],
        ) -> u32;
        pub fn mandrikelo_write_job(
            mesh: *const f64, mesh_len: usize, floor: f64, radius: f64, questions: *const f64, questions_len: usize,
            bytes: *mut u8, bytes_len: usize, size: *mut [usize; 1],
        ) -> u32;
        pub fn mandrikelo_read_stl(
            bytes: *const u8, bytes_len: usize, mesh: *mut f64, mesh_len: usize, count: *mut [u32; 1],
        ) -> u32;
        pub fn mandrikelo_check_index(
            mesh: *const f64, mesh_len: usize, measures: *const [f64; 6], sizes: *const [u32; 3],
            starts: *const u32, starts_len: usize, members: *const u32, members_len: usize, boxes: *const f64, boxes_len: usize,
        ) -> u32;
        pub fn mandrikelo_rooms(mesh: *const f64, mesh_len: usize, floor: f64, r: f64, rooms: *mut [usize; 2]) -> u32;
        pub fn mandrikelo_look_over(
            bytes: *const u8, bytes_len: usize, mesh: *const f64, mesh_len: usize, measures: *const [f64; 6], sizes: *const [u32; 3],
            starts: *const u32, starts_len: usize, members: *const u32, members_len: usize, boxes: *const f64, boxes_len: usize,
            marks: *mut u32, marks_len: usize, sections: *const f64, sections_len: usize, tolerance: f64, finding: *mut [u32; 3],
        ) -> u32;
    }
}

/// What a build filled, with the mesh that it was built from: what every question reads.
#[derive(Clone, Copy)]
pub struct Tables<'a> {
    pub mesh: &'a [f64],
    pub measures: &'a [f64; 6],
    pub sizes: &'a [u32; 3],
    pub starts: &'a [u32],
    pub members: &'a [u32],
    pub boxes: &'a [f64],
}

/// What a build writes: the tables' first entries, the header, and after refusal 4 the place.
#[derive(Default)]
pub struct Built {
    pub measures: [f64; 6],
    pub sizes: [u32; 3],
    pub bad: [u32; 2],
}

pub fn build(mesh: &[f64], floor: f64, r: f64, starts: &mut [u32], members: &mut [u32], boxes: &mut [f64], built: &mut Built) -> u32 {
    unsafe {
        c::mandrikelo_build(
            mesh.as_ptr(), mesh.len(), floor, r, starts.as_mut_ptr(), starts.len(), members.as_mut_ptr(), members.len(),
            boxes.as_mut_ptr(), boxes.len(),
            &mut built.measures, &mut built.sizes, &mut built.bad,
        )
    }
}

/// Adds the amount to every z of the mesh and of its boxes; `raised` gets the header of the raised index.
pub fn raise(mesh: &mut [f64], boxes: &mut [f64], measures: &[f64; 6], sizes: &[u32; 3], amount: f64, raised: &mut Built) -> u32 {
    unsafe {
        c::mandrikelo_raise(
            mesh.as_mut_ptr(), mesh.len(), boxes.as_mut_ptr(), boxes.len(), measures, sizes, amount,
            &mut raised.measures, &mut raised.sizes, &mut raised.bad,
        )
    }
}

/// Calls a question: what the index is made of, then the marks, then what the question has of its own.
macro_rules! asked {
    ($name:ident, $tables:expr, $marks:expr, $($own:tt)*) => {
        unsafe {
            c::$name(
                $tables.mesh.as_ptr(), $tables.mesh.len(), $tables.measures, $tables.sizes,
                $tables.starts.as_ptr(), $tables.starts.len(), $tables.members.as_ptr(), $tables.members.len(),
                $tables.boxes.as_ptr(), $tables.boxes.len(),
                $marks.as_mut_ptr(), $marks.len(), $($own)*
            )
        }
    };
}

/// What a height question answers: the height, count and stamp, what was touched.
#[derive(Default)]
pub struct Answered {
    pub height: [f64; 1],
    pub counts: [u32; 2],
    pub touched: [u32; 3],
}

pub fn max_height(t: &Tables, marks: &mut [u32], stamp: u32, p: [f64; 2], q: [f64; 2], r: f64, out: &mut Answered) -> u32 {
    asked!(mandrikelo_max_height, t, marks, stamp, p[0], p[1], q[0], q[1], r, &mut out.height, &mut out.counts, &mut out.touched)
}

pub fn max_bull(t: &Tables, marks: &mut [u32], stamp: u32, p: [f64; 2], r: f64, rc: f64, out: &mut Answered) -> u32 {
    asked!(mandrikelo_max_bull, t, marks, stamp, p[0], p[1], r, rc, &mut out.height, &mut out.counts, &mut out.touched)
}

pub fn max_sections(t: &Tables, marks: &mut [u32], stamp: u32, p: [f64; 2], sections: &[f64], out: &mut Answered) -> u32 {
    asked!(mandrikelo_max_sections, t, marks, stamp, p[0], p[1], sections.as_ptr(), sections.len(), &mut out.height, &mut out.counts, &mut out.touched)
}

/// `counts` gets 0 none, 1 clear, 2 blocked; the count; the stamp afterwards.
pub fn bull_chord_clear(
    t: &Tables, marks: &mut [u32], stamp: u32, a: [f64; 3], b: [f64; 3], r: f64, rc: f64, lift: f64, counts: &mut [u32; 3],
) -> u32 {
    asked!(mandrikelo_bull_chord_clear, t, marks, stamp, a[0], a[1], a[2], b[0], b[1], b[2], r, rc, lift, counts)
}

pub fn sections_chord_clear(
    t: &Tables, marks: &mut [u32], stamp: u32, a: [f64; 3], b: [f64; 3], lift: f64, sections: &[f64], counts: &mut [u32; 3],
) -> u32 {
    asked!(mandrikelo_sections_chord_clear, t, marks, stamp, a[0], a[1], a[2], b[0], b[1], b[2], lift,
        sections.as_ptr(), sections.len(), counts)
}

/// What a plan answers beside its two tables.
#[derive(Default)]
pub struct Planned {
    pub lengths: [f64; 2],
    pub counts: [u32; 3],
}

pub fn plan(
    t: &Tables, marks: &mut [u32], parameters: &[f64; 7], axis: u32, levels: &mut [f64], runs: &mut [f64], out: &mut Planned,
) -> u32 {
    asked!(mandrikelo_plan, t, marks, parameters, axis, levels.as_mut_ptr(), levels.len(), runs.as_mut_ptr(), runs.len(),
        &mut out.lengths, &mut out.counts)
}

pub fn sections_of(
    shape: u32, enclose: bool, neck: bool, sheet: &[f64; 8], holders: &[f64], sections: &mut [f64], count: &mut [u32; 1],
) -> u32 {
    unsafe {
        c::mandrikelo_sections_of(
            shape, enclose, neck, sheet, holders.as_ptr(), holders.len(), sections.as_mut_ptr(), sections.len(), count,
        )
    }
}

pub fn moves_begin(
    runs: &[f64], heights: &[f64; 3], start: &[f64; 3], first_id: u64, position: &mut [f64; 3], state: &mut [u64; 3],
) -> u32 {
    unsafe { c::mandrikelo_moves_begin(runs.as_ptr(), runs.len(), heights, start, first_id, position, state) }
}

/// `step` gets the kind (0 the end, 1 rapid, 2 plunge, 3 cut, 4 retract) and the id.
pub fn moves_next(
    runs: &[f64], heights: &[f64; 3], position: &mut [f64; 3], state: &mut [u64; 3], end: &mut [f64; 3], step: &mut [u64; 2],
) -> u32 {
    unsafe { c::mandrikelo_moves_next(runs.as_ptr(), runs.len(), heights, position, state, end, step) }
}

/// `measures` gets floor and radius, `sizes` the numbers of triangles and questions, after 19 the whole triangles before the cut.
pub fn read_job(bytes: &[u8], mesh: &mut [f64], questions: &mut [f64], measures: &mut [f64; 2], sizes: &mut [u32; 2]) -> u32 {
    unsafe {
        c::mandrikelo_read_job(
            bytes.as_ptr(), bytes.len(), mesh.as_mut_ptr(), mesh.len(), questions.as_mut_ptr(), questions.len(), measures, sizes,
        )
    }
}

/// The same of a job in whole micrometres.
pub fn read_job_um(bytes: &[u8], mesh: &mut [i32], questions: &mut [i32], measures: &mut [i32; 2], sizes: &mut [u32; 2]) -> u32 {
    unsafe {
        c::mandrikelo_read_job_um(
            bytes.as_ptr(), bytes.len(), mesh.as_mut_ptr(), mesh.len(), questions.as_mut_ptr(), questions.len(), measures, sizes,
        )
    }
}

/// What a build in micrometres writes beside its tables: origin, floor and radius; n, columns, rows, cell; after refusal 4 the place.
#[derive(Clone, Debug, Default)]
pub struct BuiltUm {
    pub measures: [i32; 4],
    pub sizes: [u32; 4],
    pub bad: [u32; 2],
}

pub fn build_um(mesh: &[i32], floor: i32, r: i32, starts: &mut [u32], members: &mut [u32], built: &mut BuiltUm) -> u32 {
    unsafe {
        c::mandrikelo_build_um(
            mesh.as_ptr(), mesh.len(), floor, r, starts.as_mut_ptr(), starts.len(), members.as_mut_ptr(), members.len(),
            &mut built.measures, &mut built.sizes, &mut built.bad,
        )
    }
}

/// `counts` gets the triangles looked at, the stamp afterwards, the boxes that meet the question's.
pub fn setup_height(
    mesh: &[i32], built: &BuiltUm, starts: &[u32], members: &[u32], marks: &mut [u32], stamp: u32, p: [i32; 2], q: [i32; 2], r: i32,
    height: &mut [i32; 1], counts: &mut [u32; 3],
) -> u32 {
    unsafe {
        c::mandrikelo_setup_height(
            mesh.as_ptr(), mesh.len(), &built.measures, &built.sizes, starts.as_ptr(), starts.len(), members.as_ptr(), members.len(),
            marks.as_mut_ptr(), marks.len(), stamp, p[0], p[1], q[0], q[1], r, height, counts,
        )
    }
}

pub fn write_job(mesh: &[f64], floor: f64, radius: f64, questions: &[f64], bytes: &mut [u8], length: &mut [usize; 1]) -> u32 {
    unsafe {
        c::mandrikelo_write_job(
            mesh.as_ptr(), mesh.len(), floor, radius, questions.as_ptr(), questions.len(), bytes.as_mut_ptr(), bytes.len(), length,
        )
    }
}

/// `count` gets the triangles read, after 19 those that stand whole before the cut.
pub fn read_stl(bytes: &[u8], mesh: &mut [f64], count: &mut [u32; 1]) -> u32 {
    unsafe { c::mandrikelo_read_stl(bytes.as_ptr(), bytes.len(), mesh.as_mut_ptr(), mesh.len(), count) }
}

/// 0 exactly when these are the index of this mesh.
pub fn check_index(t: &Tables) -> u32 {
    unsafe {
        c::mandrikelo_check_index(
            t.mesh.as_ptr(), t.mesh.len(), t.measures, t.sizes, t.starts.as_ptr(), t.starts.len(), t.members.as_ptr(), t.members.len(),
            t.boxes.as_ptr(), t.boxes.len(),
        )
    }
}

/// `rooms` gets the entries of starts and of members that a build of this mesh needs.
pub fn rooms(mesh: &[f64], floor: f64, r: f64, rooms: &mut [usize; 2]) -> u32 {
    unsafe { c::mandrikelo_rooms(mesh.as_ptr(), mesh.len(), floor, r, rooms) }
}

/// `finding` gets 1 passes, 2 does not; the first bad move; 1 blocked rapid, 2 changed z, 3 cut too deep.
pub fn look_over(bytes: &[u8], t: &Tables, marks: &mut [u32], sections: &[f64], tolerance: f64, finding: &mut [u32; 3]) -> u32 {
    unsafe {
        c::mandrikelo_look_over(
            bytes.as_ptr(), bytes.len(), t.mesh.as_ptr(), t.mesh.len(), t.measures, t.sizes,
            t.starts.as_ptr(), t.starts.len(), t.members.as_ptr(), t.members.len(), t.boxes.as_ptr(), t.boxes.len(),
            marks.as_mut_ptr(), marks.len(), sections.as_ptr(), sections.len(), tolerance, finding,
        )
    }
}

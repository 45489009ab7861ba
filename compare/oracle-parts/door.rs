//! The way in to an oracle: a module inside flat.rs, since most of what is compared is private there.
//! Meshes are nine numbers a triangle, as everywhere in this repository.
use super::*;
use crate::{
    motion::Vec3,
    stock::NeverCancelled,
    tap,
    tool::{Cutter, CutterShape, HolderSection, Neck, PreparedAssembly, PreparedCutter},
};

/// The mesh in camlib's own form.
pub fn surface(mesh: &[f64]) -> SurfaceMesh {
    SurfaceMesh { triangles: std::sync::Arc::new(mesh.chunks_exact(9).map(corners).collect()) }
}

fn corners(t: &[f64]) -> [Vec3; 3] {
    [[t[0], t[1], t[2]], [t[3], t[4], t[5]], [t[6], t[7], t[8]]]
}

/// One triangle, with the box that the index gives it (not used by the contacts).
#[derive(Clone, Copy)]
pub struct Triangle(Tri);

impl Triangle {
    pub fn new(t: &[f64; 9]) -> Self {
        Triangle(Tri { p: corners(t), min: [0.; 2], max: [0.; 3] })
    }
    pub fn distance_xy(&self, x: [f64; 2]) -> f64 {
        self.0.distance_xy(x)
    }
    pub fn max_in_capsule(&self, p: [f64; 2], q: [f64; 2], r: f64, eps: f64) -> Option<f64> {
        self.0.max_in_capsule(p, q, r, eps)
    }
    /// A floor of minus infinity gives `bull_contact`.
    pub fn bull_contact(&self, p: [f64; 2], r: f64, rc: f64, floor: f64) -> Option<f64> {
        self.0.bull_contact_above(p, r, rc, floor)
    }
    pub fn section_contact(&self, p: [f64; 2], s: [f64; 4]) -> Option<f64> {
        self.0.section_contact(p, &section(&s))
    }
}

pub fn dist2_to_segment(x: [f64; 2], p: [f64; 2], q: [f64; 2]) -> f64 {
    super::dist2_to_segment(x, p, q)
}

pub fn bull_profile(d: f64, r: f64, rc: f64) -> f64 {
    super::bull_profile(d, r, rc)
}

fn section(s: &[f64]) -> Section {
    Section { z0: s[0], r0: s[1], r1: s[2], rise: s[3] }
}

/// Whether camlib takes the section.
pub fn valid(s: &[f64]) -> bool {
    section(s).valid()
}

/// A tool, in camlib's own form.
pub struct Tool(Vec<Section>);

impl Tool {
    pub fn new(table: &[f64]) -> Self {
        Tool(table.chunks_exact(4).map(section).collect())
    }
}

/// The first of the two, unless `better` says that the second is.
fn first(a: f64, b: f64, better: impl Fn(f64, f64) -> bool) -> f64 {
    if better(a, b) { b } else { a }
}

pub struct Grid(Index);

impl Grid {
    pub fn new(mesh: &SurfaceMesh, floor: f64, r: f64) -> Result<Self, String> {
        Index::new(mesh, floor, r, &NeverCancelled).map(Grid)
    }
    /// The same from tables that were handed over. A cell whose stretch does not stand is left empty: no accepted question
    /// reaches it.
    pub fn from_tables(
        mesh: &SurfaceMesh, measures: &[f64; 6], sizes: &[u32; 3], starts: &[u32], members: &[u32], boxes: &[f64],
    ) -> Self {
        let boxed = |(t, b): (&[Vec3; 3], &[f64])| Tri { p: *t, min: [b[0], b[1]], max: [b[2], b[3], b[4]] };
        let stretch = |c: usize| {
            let (from, to) = (starts[c] as usize, starts[c + 1] as usize);
            if from <= to && to <= members.len() { members[from..to].to_vec() } else { vec![] }
        };
        let dims = [sizes[1] as usize, sizes[2] as usize];
        Grid(Index {
            tris: mesh.triangles.iter().zip(boxes.chunks_exact(5)).map(boxed).collect(),
            origin: [measures[0], measures[1]],
            cell: measures[2],
            dims,
            bins: (0..dims[0] * dims[1]).map(stretch).collect(),
            floor: measures[3],
            eps: measures[4],
        })
    }
    /// Origin x, origin y, cell, floor, eps.
    pub fn measures(&self) -> [f64; 5] {
        [self.0.origin[0], self.0.origin[1], self.0.cell, self.0.floor, self.0.eps]
    }
    /// Low x, low y, high x, high y and high z of each triangle, as the index keeps them.
    pub fn boxes(&self) -> Vec<f64> {
        self.0.tris.iter().flat_map(|t| [t.min[0], t.min[1], t.max[0], t.max[1], t.max[2]]).collect()
    }
    /// Columns, rows.
    pub fn dims(&self) -> [usize; 2] {
        self.0.dims
    }
    pub fn cell(&self, c: usize) -> &[u32] {
        &self.0.bins[c]
    }
    pub fn max_height(&self, p: [f64; 2], q: [f64; 2], r: f64, seen: &mut [u32], stamp: &mut u32) -> f64 {
        self.0.max_height(p, q, r, seen, stamp)
    }
    pub fn max_bull(&self, p: [f64; 2], r: f64, rc: f64, seen: &mut [u32], stamp: &mut u32) -> f64 {
        self.0.max_bull(p, r, rc, seen, stamp)
    }
    pub fn max_sections(&self, p: [f64; 2], tool: &Tool, seen: &mut [u32], stamp: &mut u32) -> f64 {
        self.0.max_sections(p, &tool.0, seen, stamp)
    }
    #[allow(clippy::too_many_arguments)]
    pub fn bull_chord_clear(
        &self, a: Vec3, b: Vec3, r: f64, rc: f64, lift: f64, seen: &mut [u32], stamp: &mut u32,
    ) -> bool {
        self.0.bull_chord_clear(a, b, r, rc, lift, seen, stamp)
    }
    pub fn sections_chord_clear(
        &self, a: Vec3, b: Vec3, tool: &Tool, lift: f64, seen: &mut [u32], stamp: &mut u32,
    ) -> bool {
        self.0.sections_chord_clear(a, b, &tool.0, lift, seen, stamp)
    }
}

/// What a plan answers: its refusal (10, 11, 12, or 9 for a parameter), or its levels, rows, runs and lengths.
pub struct Plan {
    pub refusal: u32,
    pub levels: Vec<f64>,
    pub runs: Vec<f64>,
    pub rows: usize,
    pub lengths: [f64; 2],
}

fn operation(mesh: &SurfaceMesh, floor: f64, parameters: &[f64; 7], axis: u32) -> FlatOperation {
    let [tolerance, level_tolerance, stepover, leave, ..] = *parameters;
    FlatOperation {
        id: "plan".into(),
        tool: "mill".into(),
        surface: mesh.clone(),
        floor_z_mm: floor,
        stepover_mm: stepover,
        clearance_z_mm: 0.,
        axis: if axis == 0 { TraverseAxis::X } else { TraverseAxis::Y },
        stock_to_leave_mm: leave,
        level_tolerance_mm: level_tolerance,
        feed_mm_min: 1.,
        plunge_mm_min: 1.,
        tolerance_mm: tolerance,
        spindle_rpm: 1.,
        work_offset: 1,
        tool_number: 1,
        length_register: 1,
        coolant: Coolant::Off,
        retract_z_mm: None,
        feed_z_mm: None,
        limits: None,
    }
}

/// `parameters`: tolerance, level tolerance, stepover, stock to leave, stock bottom, stock top, cutting length.
pub fn plan(mesh: &SurfaceMesh, floor: f64, r: f64, parameters: &[f64; 7], axis: u32, room: usize) -> Plan {
    let [_, _, _, _, bottom, top, cutting] = *parameters;
    let op = operation(mesh, floor, parameters, axis);
    let holders: Vec<HolderSection> = vec![];
    let tool = ToolAssembly {
        id: "mill".into(),
        diameter_mm: 2. * r,
        cutting_length_mm: cutting,
        stickout_mm: cutting,
        holders,
    };
    let spec = StockSpec { min_mm: [0., 0., bottom], max_mm: [0., 0., top] };
    tap::room(room);
    let refused = |refusal| Plan { refusal, levels: vec![], runs: vec![], rows: 0, lengths: [0.; 2] };
    match FlatPlan::prepare(op, &tool, &spec, [0.; 3], 1, &NeverCancelled) {
        Ok(plan) => Plan {
            refusal: 0,
            levels: tap::heard().iter().flat_map(|(z, low, high)| [*z, low[0], low[1], high[0], high[1]]).collect(),
            runs: plan.runs.iter().flat_map(|run| [run.a[0], run.a[1], run.b[0], run.b[1], run.z]).collect(),
            rows: plan.report.rows,
            lengths: [plan.report.cut_length_mm, plan.report.dropped_length_mm],
        },
        Err(why) if why == tap::TOO_MANY_LEVELS => refused(11),
        Err(why) if why == tap::TOO_MANY_SAMPLES => refused(12),
        Err(why) if why.contains("flat level Z") => refused(10),
        Err(_) => refused(9),
    }
}

fn run(five: &[f64]) -> Run {
    Run { a: [five[0], five[1]], b: [five[2], five[3]], z: five[4] }
}

/// Runs of five numbers each, joined by camlib's own loop.
pub fn join(table: &[f64]) -> Vec<f64> {
    let runs = super::joined(table.chunks_exact(5).map(run).collect());
    runs.iter().flat_map(|run| [run.a[0], run.a[1], run.b[0], run.b[1], run.z]).collect()
}

/// `sheet`: diameter, tip diameter, tip height, cutting length, stickout, neck length, the radii just above the cutting length and just
/// above the neck. The list as a flat table, or the refusal that camlib's words stand for.
pub fn sheet_sections(shape: u32, enclose: bool, neck: bool, sheet: &[f64; 8], holders: &[f64]) -> Result<Vec<f64>, u32> {
    let [diameter_mm, tip_diameter_mm, tip_height_mm, cutting_length_mm, stickout_mm, length_mm, above_cut, above_neck] = *sheet;
    let shape = match shape {
        0 => CutterShape::Flat,
        1 => CutterShape::Ball,
        2 => CutterShape::Bull { corner_radius_mm: diameter_mm / 4. },
        3 => CutterShape::Drill { angle: 0. },
        4 => CutterShape::Chamfer { tip_diameter_mm, angle: 0. },
        _ => CutterShape::Beam,
    };
    let holder = |h: &[f64]| HolderSection { z_min_mm: h[0], z_max_mm: h[1], radius_min_mm: h[2], radius_max_mm: h[3] };
    let holders = holders.chunks_exact(4).map(holder).collect();
    let assembly = ToolAssembly { id: "mill".into(), diameter_mm, cutting_length_mm, stickout_mm, holders };
    let neck = neck.then_some(Neck { length_mm });
    let cutter = Cutter { shape, diameter_mm, cutting_length_mm, center_cutting: true, neck };
    let tool = PreparedAssembly::new(&assembly, PreparedCutter { cutter, tip_height_mm }, [above_cut, above_neck]);
    match sections_of(&tool, enclose) {
        Ok(list) => Ok(list.iter().flat_map(|s| [s.z0, s.r0, s.r1, s.rise]).collect()),
        Err(why) if why.starts_with("tool sections cover") => Err(24),
        Err(_) => Err(8),
    }
}

/// Where the moves stand, in camlib's own plan; the heights come as clearance, retract and feed, the state as phase, run and next id.
pub struct Moves {
    plan: FlatPlan,
    stock: Stock,
}

/// A move as camlib gives it: start, end, kind (1 rapid, 2 plunge, 3 cut, 4 retract) and id.
pub struct Move {
    pub start: Vec3,
    pub end: Vec3,
    pub kind: u64,
    pub id: u64,
}

const PHASES: [Phase; 8] = [
    Phase::Lift, Phase::Approach, Phase::Descend, Phase::Plunge, Phase::Cut, Phase::Retract, Phase::Rise, Phase::Done,
];

impl Moves {
    pub fn new(runs: &[f64], heights: &[f64; 3], position: Vec3, state: &[u64; 3]) -> Self {
        let spec = StockSpec { min_mm: [0.; 3], max_mm: [0.; 3] };
        let plan = FlatPlan {
            op: operation(&surface(&[]), 0., &[0.; 7], 0),
            spec: spec.clone(),
            heights: crate::heights::Heights { clearance: heights[0], retract: heights[1], feed: heights[2] },
            runs: runs.chunks_exact(5).map(|r| Run { a: [r[0], r[1]], b: [r[2], r[3]], z: r[4] }).collect(),
            run: state[1] as usize,
            phase: PHASES[state[0] as usize],
            initial: position,
            position,
            next_id: state[2],
            expected_generation: None,
            drained: false,
            report: FlatReport {
                strategy: "flat",
                geometric_residual_status: ResidualStatus::Pending,
                levels_z_mm: vec![],
                rows: 0,
                runs: 0,
                cut_length_mm: 0.,
                dropped_length_mm: 0.,
                runs_completed: 0,
                clearance_proof: "",
            },
        };
        Moves { plan, stock: Stock { spec, generation: 0 } }
    }
    /// The next move, or the end.
    pub fn next(&mut self) -> Result<Option<Move>, String> {
        let Some(motion) = self.plan.next_motion_with_stock(&self.stock, &NeverCancelled)? else {
            return Ok(None);
        };
        self.stock.generation += 1;
        let kind = match motion.kind {
            MoveKind::Rapid => 1,
            MoveKind::Plunge => 2,
            MoveKind::Cut => 3,
            MoveKind::Retract => 4,
        };
        let Curve::Line { start, end } = motion.curve;
        Ok(Some(Move { start, end, kind, id: motion.id }))
    }
    pub fn position(&self) -> Vec3 {
        self.plan.position
    }
    /// Phase, run, next id.
    pub fn state(&self) -> [u64; 3] {
        let phase = PHASES.iter().position(|p| *p == self.plan.phase).unwrap();
        [phase as u64, self.plan.run as u64, self.plan.next_id]
    }
}

//! One oracle: camlib's src/flat.rs as `compare/oracle` wrote it, and around it what flat.rs names of camlib's other files.
//! The calls of this crate go through `flat::door`.
#![allow(dead_code, unused_imports, clippy::all)]

pub mod flat;

/// hypot as request 6 has it, in its own whole numbers.
#[path = "../../../compare/oracle-parts/hypot.rs"]
pub mod hypot;

/// Document 01's numbers, where Rust leaves a result open, with request 6's hypot. (The build "as shipped" does not use them.)
pub mod numbers {
    pub trait Numbers {
        fn max_of(self, other: f64) -> f64;
        fn min_of(self, other: f64) -> f64;
        fn hypot_of(self, other: f64) -> f64;
        fn squares_of(self, other: f64) -> f64;
        fn power_of(self, times: i32) -> f64;
    }

    impl Numbers for f64 {
        /// A NaN yields the other operand; if the two compare equal, the first operand.
        #[inline]
        fn max_of(self, other: f64) -> f64 {
            if self.is_nan() || self < other { other } else { self }
        }
        #[inline]
        fn min_of(self, other: f64) -> f64 {
            if self.is_nan() || other < self { other } else { self }
        }
        /// The f64 nearest to the exact root of the sum of squares, ties to even.
        #[inline]
        fn hypot_of(self, other: f64) -> f64 {
            crate::hypot::exact_hypot(self, other)
        }
        /// The same before request 6.
        #[inline]
        fn squares_of(self, other: f64) -> f64 {
            crate::hypot::squares_first(self, other)
        }
        /// Multiplied left to right.
        #[inline]
        fn power_of(self, times: i32) -> f64 {
            let mut product = self;
            for _ in 1..times {
                product *= self;
            }
            product
        }
    }
}

/// What the rules of `compare/oracle` call from inside a plan: the levels as found, and the two refusals that document 01 puts in
/// the place of `check_memory`.
pub mod tap {
    use crate::{facing::TraverseAxis, flat::FlatOperation};
    use std::cell::{Cell, RefCell};

    pub type Level = (f64, [f64; 2], [f64; 2]);
    /// A stretch or a piece: its ends and z.
    pub type Piece = ([f64; 2], [f64; 2], f64);
    pub const TOO_MANY_LEVELS: &str = "11";
    pub const TOO_MANY_SAMPLES: &str = "12";

    thread_local! {
        static LEVELS: RefCell<Vec<Level>> = const { RefCell::new(vec![]) };
        static ROOM: RefCell<usize> = const { RefCell::new(0) };
        static STRETCHES: RefCell<Vec<Piece>> = const { RefCell::new(vec![]) };
        static PIECES: RefCell<Vec<(Piece, bool)>> = const { RefCell::new(vec![]) };
    }

    pub fn stretch(a: [f64; 2], b: [f64; 2], z: f64) {
        STRETCHES.with(|all| all.borrow_mut().push((a, b, z)));
    }

    pub fn piece(a: [f64; 2], b: [f64; 2], z: f64, kept: bool) {
        PIECES.with(|all| all.borrow_mut().push(((a, b, z), kept)));
    }

    /// The stretches and the pieces of the last plan, in the order made. (The build "as shipped" tells none.)
    pub fn pieces() -> (Vec<Piece>, Vec<(Piece, bool)>) {
        (STRETCHES.with(|all| all.borrow().clone()), PIECES.with(|all| all.borrow().clone()))
    }

    /// The candidate on offer and the number of the next corner; what the last contact's winner was; the triangle on look; what the last
    /// height question was raised by. Only the build that records what was touched calls these.
    #[derive(Clone, Copy, Default)]
    struct Record {
        offered: [u32; 2],
        corner: u32,
        won: [u32; 2],
        triangle: u32,
        raised: [u32; 3],
    }

    thread_local! {
        static RECORD: Cell<Record> = const { Cell::new(Record { offered: [0; 2], corner: 0, won: [0; 2], triangle: 0, raised: [0; 3] }) };
    }

    fn record(change: impl FnOnce(&mut Record)) {
        RECORD.with(|kept| {
            let mut r = kept.get();
            change(&mut r);
            kept.set(r);
        });
    }

    /// The first found wins a tie; a NaN takes no place, and any number takes a NaN's.
    fn exceeds(z: f64, b: f64) -> bool {
        b < z || b.is_nan() && !z.is_nan()
    }

    pub fn contact() {
        record(|r| (r.corner, r.won) = (0, [0; 2]));
    }
    pub fn corner() {
        record(|r| (r.offered, r.corner) = ([1, r.corner], r.corner + 1));
    }
    pub fn edge(k: usize) {
        record(|r| r.offered = [2, k as u32]);
    }
    pub fn face() {
        record(|r| r.offered = [3, 0]);
    }
    pub fn taken(best: Option<f64>, z: f64) {
        if best.is_none_or(|b| exceeds(z, b)) {
            record(|r| r.won = r.offered);
        }
    }
    pub fn asked() {
        record(|r| r.raised = [0; 3]);
    }
    pub fn looked(i: u32) {
        record(|r| r.triangle = i);
    }
    pub fn raised(best: f64, z: f64) {
        if exceeds(z, best) {
            record(|r| r.raised = [r.triangle, r.won[0], r.won[1]]);
        }
    }
    /// What the last contact touched: kind, which.
    pub fn won() -> [u32; 2] {
        RECORD.with(|kept| kept.get().won)
    }
    /// What the last height question was raised by: triangle, kind, which.
    pub fn touched() -> [u32; 3] {
        RECORD.with(|kept| kept.get().raised)
    }

    pub fn room(levels: usize) {
        STRETCHES.with(|all| all.borrow_mut().clear());
        PIECES.with(|all| all.borrow_mut().clear());
        ROOM.with(|room| *room.borrow_mut() = levels);
    }

    pub fn heard() -> Vec<Level> {
        LEVELS.with(|levels| levels.borrow().clone())
    }

    pub fn levels(found: &[Level]) -> Result<(), String> {
        LEVELS.with(|levels| *levels.borrow_mut() = found.to_vec());
        if found.len() > ROOM.with(|room| *room.borrow()) {
            return Err(TOO_MANY_LEVELS.into());
        }
        Ok(())
    }

    pub fn sizes(found: &[Level], r: f64, op: &FlatOperation) -> Result<(), String> {
        let (along, across) = if op.axis == TraverseAxis::X { (0, 1) } else { (1, 0) };
        for (_, low, high) in found {
            let intervals = ((high[across] + r - (low[across] - r)) / op.stepover_mm).ceil();
            let h = if r < op.stepover_mm { r } else { op.stepover_mm } / 4.;
            let samples = ((high[along] + r - (low[along] - r)) / h).ceil();
            if intervals > 65_535. || samples > 65_535. {
                return Err(TOO_MANY_SAMPLES.into());
            }
        }
        Ok(())
    }
}

pub mod facing {
    #[derive(Clone, Copy, Debug, PartialEq, Eq)]
    pub enum TraverseAxis {
        X,
        Y,
    }
}

pub mod pocket {
    #[derive(Debug)]
    pub enum ResidualStatus {
        Pending,
        Unknown,
    }
}

pub mod resources {
    /// Refusals 5, 6 and 12 stand in its place.
    pub fn check_memory(_: u128, _: &str) -> Result<(), String> {
        Ok(())
    }
}

pub mod surface {
    use crate::motion::Vec3;
    #[derive(Clone, Debug)]
    pub struct SurfaceMesh {
        pub triangles: std::sync::Arc<Vec<[Vec3; 3]>>,
    }
}

pub mod heights {
    /// Clearance, retract and feed heights are left behind; a plan's own parameters are tested as camlib tests them.
    pub struct Heights {
        pub clearance: f64,
        pub retract: f64,
        pub feed: f64,
    }
    impl Heights {
        pub fn resolve(_: f64, _: Option<f64>, _: Option<f64>, _: f64, _: f64) -> Result<Self, String> {
            Ok(Heights { clearance: 0., retract: 0., feed: 0. })
        }
    }
    pub fn require(what: &str, checks: impl IntoIterator<Item = (bool, String)>) -> Result<(), String> {
        for (holds, message) in checks {
            if !holds {
                return Err(format!("{what}: {message}"));
            }
        }
        Ok(())
    }
}

pub mod stock {
    pub trait CancelSignal {
        fn is_cancelled(&self) -> bool;
    }
    pub struct NeverCancelled;
    impl CancelSignal for NeverCancelled {
        fn is_cancelled(&self) -> bool {
            false
        }
    }
    #[derive(Clone, PartialEq)]
    pub struct StockSpec {
        pub min_mm: [f64; 3],
        pub max_mm: [f64; 3],
    }
    impl StockSpec {
        pub fn grid(&self) -> Result<(), String> {
            Ok(())
        }
    }
    /// Stock generations are left behind: the moves ask for the one after the last.
    pub struct Stock {
        pub spec: StockSpec,
        pub generation: u64,
    }
    impl Stock {
        pub fn spec(&self) -> &StockSpec {
            &self.spec
        }
        pub fn generation(&self) -> u64 {
            self.generation
        }
    }
}

pub mod motion {
    pub type Vec3 = [f64; 3];
    #[derive(Clone, Copy, Debug)]
    pub enum Coolant {
        Off,
    }
    pub enum SpindleDirection {
        Cw,
    }
    pub enum MoveKind {
        Rapid,
        Plunge,
        Cut,
        Retract,
    }
    impl Clone for MoveKind {
        fn clone(&self) -> Self {
            *self
        }
    }
    impl Copy for MoveKind {}
    pub enum Curve {
        Line { start: Vec3, end: Vec3 },
    }
    impl Curve {
        pub fn prepare(&self, _: f64) -> Result<(), String> {
            Ok(())
        }
    }
    pub struct Motion {
        pub id: u64,
        pub operation: String,
        pub tool: String,
        pub kind: MoveKind,
        pub curve: Curve,
        pub feed_mm_min: Option<f64>,
    }
    pub enum Event {
        WorkOffset { number: u8 },
        ToolChange { tool: String, number: u32, length_register: u32, position_after_mm: Vec3 },
        Spindle { rpm: f64, direction: SpindleDirection },
        Coolant { mode: Coolant },
    }
}

pub mod limits {
    use crate::motion::Curve;
    #[derive(Clone, Debug)]
    pub struct Limits;
    impl Limits {
        pub fn is_empty(&self) -> bool {
            true
        }
    }
    pub struct PreparedLimits;
    impl PreparedLimits {
        pub fn new(_: &Limits, _: f64, _: f64) -> Result<Self, String> {
            Ok(PreparedLimits)
        }
        pub fn allowed_spans(&self, _: &Curve, _: bool) -> Result<Vec<[f64; 2]>, String> {
            unreachable!("left behind")
        }
    }
}

pub mod tool {
    pub fn valid_id(_: &str) -> bool {
        true
    }
    pub enum CutterShape {
        Flat,
        Ball,
        Bull { corner_radius_mm: f64 },
        Chamfer { tip_diameter_mm: f64, angle: f64 },
        Drill { angle: f64 },
        Beam,
    }
    pub struct Neck {
        pub length_mm: f64,
    }
    pub struct Cutter {
        pub shape: CutterShape,
        pub diameter_mm: f64,
        pub cutting_length_mm: f64,
        pub center_cutting: bool,
        pub neck: Option<Neck>,
    }
    pub struct PreparedCutter {
        pub cutter: Cutter,
        /// Handed in: the height of the tip at the full radius.
        pub tip_height_mm: f64,
    }
    impl PreparedCutter {
        pub fn definition(&self) -> &Cutter {
            &self.cutter
        }
        pub fn tip_height_at_radius(&self, _: f64) -> Option<f64> {
            Some(self.tip_height_mm)
        }
    }
    pub struct HolderSection {
        pub z_min_mm: f64,
        pub z_max_mm: f64,
        pub radius_min_mm: f64,
        pub radius_max_mm: f64,
    }
    pub struct ToolAssembly {
        pub id: String,
        pub diameter_mm: f64,
        pub cutting_length_mm: f64,
        pub stickout_mm: f64,
        pub holders: Vec<HolderSection>,
    }
    impl ToolAssembly {
        /// A flat, centre-cutting end mill of this diameter and cutting length.
        pub fn prepare(&self) -> Result<PreparedAssembly<'_>, String> {
            let cutter = Cutter {
                shape: CutterShape::Flat,
                diameter_mm: self.diameter_mm,
                cutting_length_mm: self.cutting_length_mm,
                center_cutting: true,
                neck: None,
            };
            Ok(PreparedAssembly::new(self, PreparedCutter { cutter, tip_height_mm: 0. }, [0.; 2]))
        }
    }
    pub struct ProfileSlice {
        pub radius_mm: f64,
    }
    pub struct PreparedAssembly<'a> {
        assembly: &'a ToolAssembly,
        cutter: PreparedCutter,
        /// Handed in: the radii just above the cutting length and just above the neck.
        radii_mm: [f64; 2],
        asked: std::cell::Cell<bool>,
    }
    impl<'a> PreparedAssembly<'a> {
        pub fn new(assembly: &'a ToolAssembly, cutter: PreparedCutter, radii_mm: [f64; 2]) -> Self {
            PreparedAssembly { assembly, cutter, radii_mm, asked: std::cell::Cell::new(false) }
        }
        pub fn definition(&self) -> &ToolAssembly {
            self.assembly
        }
        pub fn cutter(&self) -> &PreparedCutter {
            &self.cutter
        }
        /// flat.rs asks at the end of the cutting length, where that lies below the stickout, and then at that of the neck.
        pub fn radius_at(&self, _: f64) -> Option<ProfileSlice> {
            let neck = self.asked.replace(true) || self.cutter.cutter.cutting_length_mm >= self.assembly.stickout_mm;
            Some(ProfileSlice { radius_mm: self.radii_mm[neck as usize] })
        }
    }
}

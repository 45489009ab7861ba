use crate::door::{self, Planned};
use crate::{Index, Refusal};

/// Which way the rows run.
#[derive(Clone, Copy, Debug, PartialEq, Eq)]
#[allow(missing_docs)]
pub enum Axis {
    X,
    Y,
}

/// What a plan is asked for. The radius and the floor are the index's.
#[derive(Clone, Copy, Debug, PartialEq)]
pub struct Parameters {
    /// 1e-7 to 0.01.
    pub tolerance: f64,
    /// From the tolerance to 0.1.
    pub level_tolerance: f64,
    /// Over 16 tolerances and at most twice the radius.
    pub stepover: f64,
    /// 0 or more.
    pub stock_to_leave: f64,
    /// At most the floor.
    pub stock_bottom: f64,
    /// Over the floor.
    pub stock_top: f64,
    /// No level may lie deeper under the stock's top than this less 16 tolerances.
    pub cutting_length: f64,
    /// Along X or along Y.
    pub axis: Axis,
}

/// A level: a height at which flat triangles lie, and their box.
#[derive(Clone, Copy, Debug, PartialEq)]
#[allow(missing_docs)]
pub struct Level {
    pub z: f64,
    pub low: [f64; 2],
    pub high: [f64; 2],
}

/// A run: a straight cut at one height, which is its level's z and the stock to leave.
#[derive(Clone, Copy, Debug, PartialEq)]
#[allow(missing_docs)]
pub struct Run {
    pub a: [f64; 2],
    pub b: [f64; 2],
    pub z: f64,
}

impl Run {
    /// Its length, worked out here and not by the planner.
    pub fn length(&self) -> f64 {
        (self.b[0] - self.a[0]).hypot(self.b[1] - self.a[1])
    }
}

/// A plan: its levels from the highest down, its runs in the order of cutting.
#[derive(Clone, Debug, PartialEq)]
pub struct Plan {
    /// The levels, highest first; one without a run had no place for the tool.
    pub levels: Vec<Level>,
    /// The rows of all levels together.
    pub rows: u32,
    /// The length cut.
    pub cut: f64,
    /// The length of the pieces that were dropped while halving.
    pub dropped: f64,
    pub(crate) numbers: Vec<f64>,
}

/// The longest table of runs that is tried.
const MOST_RUNS: usize = 1 << 25;

impl Index<'_> {
    /// The flat runs over this index's mesh. Refusals: 9, 10, 12, and 13 for over 33 million runs.
    ///
    /// ```
    /// use mandrikelo::{Axis, Index, Mesh, Parameters};
    /// // a square at height 1
    /// let mesh = Mesh::from_numbers(vec![0., 0., 1., 9., 0., 1., 9., 9., 1.,  0., 0., 1., 9., 9., 1., 0., 9., 1.]);
    /// let index = Index::build(&mesh, 0.0, 2.0)?;
    /// let plan = index.plan(&Parameters {
    ///     tolerance: 0.001, level_tolerance: 0.01, stepover: 3., stock_to_leave: 0., stock_bottom: 0., stock_top: 1., cutting_length: 20.,
    ///     axis: Axis::X,
    /// })?;
    /// assert_eq!((plan.levels.len(), plan.levels[0].z), (1, 1.0));
    /// assert_eq!(plan.runs().len(), plan.rows as usize);
    /// # Ok::<(), mandrikelo::Refusal>(())
    /// ```
    pub fn plan(&self, asked: &Parameters) -> Result<Plan, Refusal> {
        let parameters = [
            asked.tolerance, asked.level_tolerance, asked.stepover, asked.stock_to_leave, asked.stock_bottom, asked.stock_top,
            asked.cutting_length,
        ];
        let n = self.mesh().len();
        let (mut marks, mut levels, mut room) = (vec![0; n], vec![0.; 5 * n], 1 << 13);
        loop {
            let (mut numbers, mut out) = (vec![0.; 5 * room], Planned::default());
            match Refusal::of(door::plan(&self.tables(), &mut marks, &parameters, asked.axis as u32, &mut levels, &mut numbers, &mut out)) {
                Err(Refusal::RunRoom) if room < MOST_RUNS => room *= 16,
                Err(refusal) => return Err(refusal),
                Ok(()) => {
                    let [count, rows, runs] = out.counts;
                    numbers.truncate(5 * runs as usize);
                    numbers.shrink_to_fit();
                    let levels = levels.chunks_exact(5).take(count as usize);
                    let levels = levels.map(|l| Level { z: l[0], low: [l[1], l[2]], high: [l[3], l[4]] }).collect();
                    return Ok(Plan { levels, rows, cut: out.lengths[0], dropped: out.lengths[1], numbers });
                }
            }
        }
    }
}

impl Plan {
    /// The runs, in the order of cutting.
    pub fn runs(&self) -> impl ExactSizeIterator<Item = Run> + '_ {
        self.numbers.chunks_exact(5).map(|r| Run { a: [r[0], r[1]], b: [r[2], r[3]], z: r[4] })
    }
}

use crate::{door, Plan, Refusal};

/// The heights of the moves: feed <= retract <= clearance.
#[derive(Clone, Copy, Debug, PartialEq)]
#[allow(missing_docs)]
pub struct Heights {
    pub clearance: f64,
    pub retract: f64,
    pub feed: f64,
}

/// What a move is for.
#[derive(Clone, Copy, Debug, PartialEq, Eq)]
#[allow(missing_docs)]
pub enum Kind {
    Rapid,
    Plunge,
    Cut,
    Retract,
}

/// One move.
#[derive(Clone, Copy, Debug, PartialEq)]
#[allow(missing_docs)]
pub struct Move {
    pub id: u64,
    pub kind: Kind,
    pub from: [f64; 3],
    pub to: [f64; 3],
}

/// The moves for a plan's runs, one after the other. Each begins where the one before it ended.
#[derive(Clone, Debug)]
pub struct Moves<'plan> {
    runs: &'plan [f64],
    heights: [f64; 3],
    position: [f64; 3],
    state: [u64; 3],
    ended: bool,
}

impl Plan {
    /// The moves for these runs from a start, with ids from the first one on. Refusals: 26, 27.
    ///
    /// ```
    /// # use mandrikelo::{Axis, Heights, Index, Kind, Mesh, Parameters};
    /// # let mesh = Mesh::from_numbers(vec![0., 0., 1., 9., 0., 1., 9., 9., 1.,  0., 0., 1., 9., 9., 1., 0., 9., 1.]);
    /// # let index = Index::build(&mesh, 0.0, 2.0)?;
    /// # let plan = index.plan(&Parameters {
    /// #     tolerance: 0.001, level_tolerance: 0.01, stepover: 3., stock_to_leave: 0., stock_bottom: 0., stock_top: 1., cutting_length: 20.,
    /// #     axis: Axis::X,
    /// # })?;
    /// let moves: Vec<_> = plan.moves(Heights { clearance: 10., retract: 5., feed: 2. }, [0., 0., 20.], 1)?.collect::<Result<_, _>>()?;
    /// assert_eq!(moves.iter().filter(|step| step.kind == Kind::Cut).count(), plan.runs().len());
    /// assert!(moves.windows(2).all(|pair| pair[0].to == pair[1].from));
    /// # Ok::<(), mandrikelo::Refusal>(())
    /// ```
    pub fn moves(&self, heights: Heights, start: [f64; 3], first_id: u64) -> Result<Moves<'_>, Refusal> {
        let heights = [heights.clearance, heights.retract, heights.feed];
        let mut moves = Moves { runs: &self.numbers, heights, position: [0.; 3], state: [0; 3], ended: false };
        Refusal::of(door::moves_begin(&self.numbers, &heights, &start, first_id, &mut moves.position, &mut moves.state))?;
        Ok(moves)
    }
}

impl Iterator for Moves<'_> {
    type Item = Result<Move, Refusal>;

    fn next(&mut self) -> Option<Self::Item> {
        if self.ended {
            return None;
        }
        let (from, mut to, mut step) = (self.position, [0.; 3], [0; 2]);
        if let Err(refusal) =
            Refusal::of(door::moves_next(self.runs, &self.heights, &mut self.position, &mut self.state, &mut to, &mut step))
        {
            self.ended = true;
            return Some(Err(refusal));
        }
        let kind = match step[0] {
            1 => Kind::Rapid,
            2 => Kind::Plunge,
            3 => Kind::Cut,
            4 => Kind::Retract,
            _ => {
                self.ended = true;
                return None;
            }
        };
        Some(Ok(Move { id: step[1], kind, from, to }))
    }
}

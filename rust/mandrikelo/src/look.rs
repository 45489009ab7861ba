use crate::{door, Index, Refusal, Tool};

/// What is said of a list of moves.
#[derive(Clone, Copy, Debug, PartialEq, Eq)]
pub enum Finding {
    /// Every move passes.
    Passes,
    /// The first bad move, counted from 0, and why.
    Fails {
        /// The move, counted from 0.
        step: u32,
        /// Why it does not pass.
        reason: Reason,
    },
}

/// Why a move does not pass.
#[derive(Clone, Copy, Debug, PartialEq, Eq)]
pub enum Reason {
    /// A rapid on whose way the tool is not clear of the part.
    BlockedRapid,
    /// A cut that does not keep its z bit for bit.
    ChangedZ,
    /// A cut under which the part stands higher than its z and the tolerance.
    TooDeep,
}

impl Reason {
    /// In words.
    pub fn words(self) -> &'static str {
        match self {
            Reason::BlockedRapid => "blocked rapid",
            Reason::ChangedZ => "cut that changes its z",
            Reason::TooDeep => "cut that goes too deep",
        }
    }
}

impl Index<'_> {
    /// Looks over another planner's moves, the bytes of a path file: rapids by the tool's sections, cuts by the swept disk of the index's
    /// radius. Refusals: 14 to 21 and 28 of the file, then 2 and 8.
    ///
    /// ```
    /// use mandrikelo::{Finding, Index, Mesh, Reason, Section, Tool};
    /// let mesh = Mesh::from_numbers(vec![0., 0., 2., 4., 0., 2., 0., 4., 2.]);
    /// let index = Index::build(&mesh, 0.0, 1.0)?;
    /// let tool = Tool::from_sections(&[Section { z0: 0., r0: 1., r1: 1., rise: 0. }]);
    /// let path = |z: f64| {
    ///     let mut bytes = b"FTP\x01\0\0\x01\0\0\0".to_vec();
    ///     [0., 0., z].iter().for_each(|x: &f64| bytes.extend(x.to_le_bytes()));
    ///     bytes.push(1); // a cut
    ///     [3., 0., z].iter().for_each(|x: &f64| bytes.extend(x.to_le_bytes()));
    ///     bytes
    /// };
    /// assert_eq!(index.look_over(&path(2.0), &tool, 0.001)?, Finding::Passes);
    /// assert_eq!(index.look_over(&path(1.5), &tool, 0.001)?, Finding::Fails { step: 0, reason: Reason::TooDeep });
    /// # Ok::<(), mandrikelo::Refusal>(())
    /// ```
    pub fn look_over(&self, bytes: &[u8], tool: &Tool, tolerance: f64) -> Result<Finding, Refusal> {
        let (mut marks, mut finding) = (vec![0; self.mesh().len()], [0; 3]);
        Refusal::of(door::look_over(bytes, &self.tables(), &mut marks, &tool.numbers, tolerance, &mut finding))?;
        Ok(match finding {
            [1, _, _] => Finding::Passes,
            [_, step, 1] => Finding::Fails { step, reason: Reason::BlockedRapid },
            [_, step, 2] => Finding::Fails { step, reason: Reason::ChangedZ },
            [_, step, _] => Finding::Fails { step, reason: Reason::TooDeep },
        })
    }
}

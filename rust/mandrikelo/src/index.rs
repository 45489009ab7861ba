use crate::door::{self, Answered, Built, Tables};
use crate::{Refusal, Tool};
use std::sync::Arc;

/// Triangles, nine numbers each: x, y, z of its three corners.
#[derive(Clone, Debug, Default, PartialEq)]
pub struct Mesh {
    pub(crate) numbers: Vec<f64>,
}

impl Mesh {
    /// A mesh of these numbers. Whether they are one that can be planned is told by [`Index::build`].
    pub fn from_numbers(numbers: Vec<f64>) -> Mesh {
        Mesh { numbers }
    }

    /// All numbers, nine a triangle.
    pub fn numbers(&self) -> &[f64] {
        &self.numbers
    }

    /// How many whole triangles there are.
    pub fn len(&self) -> usize {
        self.numbers.len() / 9
    }

    /// Whether there is none.
    pub fn is_empty(&self) -> bool {
        self.len() == 0
    }

    /// The triangles, nine numbers each.
    pub fn triangles(&self) -> impl ExactSizeIterator<Item = &[f64; 9]> + '_ {
        self.numbers.chunks_exact(9).map(|numbers| numbers.try_into().expect("nine numbers"))
    }

    /// The lowest and the highest corner: of every axis the smallest and the largest number. None for an empty mesh.
    pub fn extent(&self) -> Option<([f64; 3], [f64; 3])> {
        let (mut low, mut high) = ([f64::INFINITY; 3], [f64::NEG_INFINITY; 3]);
        for corner in self.numbers.chunks_exact(3) {
            for axis in 0..3 {
                low[axis] = low[axis].min(corner[axis]);
                high[axis] = high[axis].max(corner[axis]);
            }
        }
        (!self.is_empty()).then_some((low, high))
    }
}

/// The index of a mesh: its grid, with the triangles of each cell. It borrows the mesh that it was built from.
#[derive(Clone, Debug)]
pub struct Index<'mesh> {
    mesh: &'mesh Mesh,
    measures: [f64; 6],
    sizes: [u32; 3],
    // an index and those raised from it have these in common
    starts: Arc<Vec<u32>>,
    members: Arc<Vec<u32>>,
    boxes: Vec<f64>,
}

/// What a question marks: one entry a triangle, and the stamp. Made by [`Index::marks`] and carried from question to question.
#[derive(Clone, Debug)]
pub struct Marks {
    pub(crate) marks: Vec<u32>,
    pub(crate) stamp: u32,
}

/// A height, how many triangles were looked at, and what gave it.
#[derive(Clone, Copy, Debug, PartialEq)]
pub struct Answer {
    /// The height, at least the floor.
    pub height: f64,
    /// The number of triangles looked at.
    pub count: u32,
    /// What the cutter touches at that height.
    pub touched: crate::Touch,
}

/// Whether a chord is clear.
#[derive(Clone, Copy, Debug, PartialEq, Eq)]
pub enum Verdict {
    /// The tool stays above every triangle.
    Clear,
    /// It does not, or an end lies under the floor.
    Blocked,
}

/// The answer to a chord.
#[derive(Clone, Copy, Debug, PartialEq, Eq)]
pub struct Chord {
    /// Clear or blocked.
    pub verdict: Verdict,
    /// The number of triangles looked at, the blocker included.
    pub count: u32,
}

impl<'mesh> Index<'mesh> {
    /// Builds the index of a mesh over a floor, for tools of about radius r. Refusals: 1, 3, 2, 4, 5, 6.
    ///
    /// ```
    /// use mandrikelo::{Index, Mesh, Refusal};
    /// let mesh = Mesh::from_numbers(vec![0., 0., 0., 1., 0., 0., 0., f64::NAN, 0.]);
    /// assert_eq!(Index::build(&mesh, 0.0, 1.0).unwrap_err(), Refusal::Coordinate { triangle: 0, number: 7 });
    /// ```
    pub fn build(mesh: &'mesh Mesh, floor: f64, r: f64) -> Result<Index<'mesh>, Refusal> {
        let mut rooms = [0; 2];
        match Refusal::of(door::rooms(&mesh.numbers, floor, r, &mut rooms)) {
            // which coordinate it is, the build tells
            Ok(()) | Err(Refusal::Coordinate { .. }) => {}
            Err(refusal) => return Err(refusal),
        }
        let (mut starts, mut members, mut boxes) = (vec![0; rooms[0]], vec![0; rooms[1]], vec![0.; 5 * mesh.len()]);
        let mut built = Built::default();
        let number = door::build(&mesh.numbers, floor, r, &mut starts, &mut members, &mut boxes, &mut built);
        Refusal::of(number).map_err(|refusal| refusal.at(built.bad))?;
        let (starts, members) = (Arc::new(starts), Arc::new(members));
        Ok(Index { mesh, measures: built.measures, sizes: built.sizes, starts, members, boxes })
    }

    /// Asks the planner whether this is the index of its mesh, built or raised. Of an index that came from [`Index::build`] or
    /// [`Index::raised`] it is; what else is found, refusal 7, is damaged memory.
    ///
    /// ```
    /// # use mandrikelo::{Index, Mesh};
    /// # let mesh = Mesh::from_numbers(vec![0., 0., 2., 4., 0., 2., 0., 4., 2.]);
    /// let index = Index::build(&mesh, 0.0, 1.0)?;
    /// index.check()?;
    /// index.raised(0.5, &mut Mesh::default())?.check()?;
    /// # Ok::<(), mandrikelo::Refusal>(())
    /// ```
    pub fn check(&self) -> Result<(), Refusal> {
        Refusal::of(door::check_index(&self.tables()))
    }

    /// The index of this part on parallels: `to` gets the mesh with the amount added to every z, and what comes back is its index, the
    /// same that [`Index::build`] would make of it with this floor and radius, without building. The mesh and the index of before stay as
    /// they are, and so does `to` after a refusal. Refusals: 2 (an amount over 1e6 in magnitude), 4 (a z that would be).
    ///
    /// ```
    /// use mandrikelo::{Index, Mesh};
    /// let mesh = Mesh::from_numbers(vec![0., 0., 2., 4., 0., 2., 0., 4., 2.]);
    /// let index = Index::build(&mesh, 0.0, 1.0)?;
    /// let mut on_parallels = Mesh::default();
    /// let raised = index.raised(0.5, &mut on_parallels)?;
    /// let height = |index: &Index| index.max_height(&mut index.marks(), [1., 1.], [1., 1.], 1.0).map(|answer| answer.height);
    /// assert_eq!((height(&index)?, height(&raised)?), (2.0, 2.5));
    /// # Ok::<(), mandrikelo::Refusal>(())
    /// ```
    pub fn raised<'to>(&self, amount: f64, to: &'to mut Mesh) -> Result<Index<'to>, Refusal> {
        let (mut numbers, mut boxes, mut raised) = (self.mesh.numbers.clone(), self.boxes.clone(), Built::default());
        let number = door::raise(&mut numbers, &mut boxes, &self.measures, &self.sizes, amount, &mut raised);
        Refusal::of(number).map_err(|refusal| refusal.at(raised.bad))?;
        to.numbers = numbers;
        let (starts, members) = (self.starts.clone(), self.members.clone());
        Ok(Index { mesh: to, measures: raised.measures, sizes: raised.sizes, starts, members, boxes })
    }

    /// The mesh that this is the index of.
    pub fn mesh(&self) -> &'mesh Mesh {
        self.mesh
    }

    /// The floor that it was built over.
    pub fn floor(&self) -> f64 {
        self.measures[3]
    }

    /// The radius that it was built for, which is the plan's.
    pub fn radius(&self) -> f64 {
        self.measures[5]
    }

    /// The columns and rows of its grid.
    pub fn grid(&self) -> (u32, u32) {
        (self.sizes[1], self.sizes[2])
    }

    /// Marks for questions to this index, none set.
    pub fn marks(&self) -> Marks {
        Marks { marks: vec![0; self.mesh.len()], stamp: 0 }
    }

    /// The highest point under the disk of radius r swept from p to q, at least the floor. Refusals: 1 (marks of another mesh), 2.
    pub fn max_height(&self, marks: &mut Marks, p: [f64; 2], q: [f64; 2], r: f64) -> Result<Answer, Refusal> {
        let mut out = Answered::default();
        let number = door::max_height(&self.tables(), &mut marks.marks, marks.stamp, p, q, r, &mut out);
        answer(number, out, marks)
    }

    /// The highest tip of a bull-nose cutter of radius r and corner radius rc over p, at least the floor. Refusals: 1, 2, 8.
    pub fn max_bull(&self, marks: &mut Marks, p: [f64; 2], r: f64, rc: f64) -> Result<Answer, Refusal> {
        let mut out = Answered::default();
        let number = door::max_bull(&self.tables(), &mut marks.marks, marks.stamp, p, r, rc, &mut out);
        answer(number, out, marks)
    }

    /// The highest tip of a tool of sections over p, at least the floor. Refusals: 1, 2, 8.
    pub fn max_sections(&self, marks: &mut Marks, p: [f64; 2], tool: &Tool) -> Result<Answer, Refusal> {
        let mut out = Answered::default();
        let number = door::max_sections(&self.tables(), &mut marks.marks, marks.stamp, p, &tool.numbers, &mut out);
        answer(number, out, marks)
    }

    /// Whether a bull-nose cutter stays above every triangle, raised by the lift, on its way from tip a to tip b. Refusals: 1, 2, 8.
    pub fn bull_chord_clear(
        &self, marks: &mut Marks, a: [f64; 3], b: [f64; 3], r: f64, rc: f64, lift: f64,
    ) -> Result<Chord, Refusal> {
        let mut counts = [0; 3];
        let number = door::bull_chord_clear(&self.tables(), &mut marks.marks, marks.stamp, a, b, r, rc, lift, &mut counts);
        chord(number, counts, marks)
    }

    /// Whether a tool of sections stays above every triangle, raised by the lift, on its way from tip a to tip b. Refusals: 1, 2, 8.
    ///
    /// ```
    /// use mandrikelo::{Index, Mesh, Section, Tool, Verdict};
    /// let mesh = Mesh::from_numbers(vec![0., 0., 2., 4., 0., 2., 0., 4., 2.]);
    /// let index = Index::build(&mesh, 0.0, 1.0)?;
    /// let tool = Tool::from_sections(&[Section { z0: 0., r0: 1., r1: 1., rise: 0. }]);
    /// let chord = index.sections_chord_clear(&mut index.marks(), [0., 0., 2.5], [4., 4., 2.5], &tool, 0.0)?;
    /// assert_eq!(chord.verdict, Verdict::Clear);
    /// let chord = index.sections_chord_clear(&mut index.marks(), [0., 0., 1.5], [4., 4., 1.5], &tool, 0.0)?;
    /// assert_eq!(chord.verdict, Verdict::Blocked);
    /// # Ok::<(), mandrikelo::Refusal>(())
    /// ```
    pub fn sections_chord_clear(
        &self, marks: &mut Marks, a: [f64; 3], b: [f64; 3], tool: &Tool, lift: f64,
    ) -> Result<Chord, Refusal> {
        let mut counts = [0; 3];
        let number =
            door::sections_chord_clear(&self.tables(), &mut marks.marks, marks.stamp, a, b, lift, &tool.numbers, &mut counts);
        chord(number, counts, marks)
    }

    pub(crate) fn tables(&self) -> Tables<'_> {
        Tables {
            mesh: &self.mesh.numbers,
            measures: &self.measures,
            sizes: &self.sizes,
            starts: &self.starts,
            members: &self.members,
            boxes: &self.boxes,
        }
    }
}

fn answer(number: u32, out: Answered, marks: &mut Marks) -> Result<Answer, Refusal> {
    marks.stamp = out.counts[1];
    Refusal::of(number)?;
    Ok(Answer {
        height: out.height[0],
        count: out.counts[0],
        touched: crate::Touch::of(out.touched),
    })
}

fn chord(number: u32, counts: [u32; 3], marks: &mut Marks) -> Result<Chord, Refusal> {
    marks.stamp = counts[2];
    Refusal::of(number)?;
    let verdict = if counts[0] == 1 { Verdict::Clear } else { Verdict::Blocked };
    Ok(Chord { verdict, count: counts[1] })
}

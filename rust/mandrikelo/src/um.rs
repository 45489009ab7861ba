//! Whole micrometres: version 2 of the job file, the index of such a mesh, and the set-up height.
use crate::door::{self, BuiltUm};
use crate::index::Marks;
use crate::{Refusal, MOST_TRIANGLES};

/// A build in micrometres is tried with more room for members up to this, which is the most that it takes.
const MOST_MEMBERS: usize = 16_777_216;

/// Triangles, nine whole numbers each: x, y, z of its three corners, in micrometres.
#[derive(Clone, Debug, Default, PartialEq, Eq)]
pub struct Mesh {
    numbers: Vec<i32>,
}

impl Mesh {
    /// A mesh of these numbers. Whether an index can be built of them is told by [`Index::build`].
    pub fn from_numbers(numbers: Vec<i32>) -> Mesh {
        Mesh { numbers }
    }

    /// All numbers, nine a triangle.
    pub fn numbers(&self) -> &[i32] {
        &self.numbers
    }

    /// How many whole triangles there are.
    pub fn len(&self) -> usize {
        self.numbers.len() / 9
    }

    /// Whether there is none.
    pub fn is_empty(&self) -> bool {
        self.len() == 0
    }
}

/// A question of such a job: the way from p to q, grown by r.
#[derive(Clone, Copy, Debug, PartialEq, Eq)]
#[allow(missing_docs)]
pub struct Question {
    pub p: [i32; 2],
    pub q: [i32; 2],
    pub r: i32,
}

/// What stands in a job file of version 2.
#[derive(Clone, Debug, PartialEq, Eq)]
#[allow(missing_docs)]
pub struct Job {
    pub mesh: Mesh,
    pub floor: i32,
    pub radius: i32,
    pub questions: Vec<Question>,
}

impl Job {
    /// Reads a job file of version 2. Refusals: 14, 15, 16, 17, 18, 19 with the whole triangles before the cut, 21.
    ///
    /// ```
    /// use mandrikelo::{um, Refusal};
    /// let mut file = b"FTM\x02\0\0\x01\0\0\0\0\0\0\0".to_vec(); // one triangle, no question
    /// for number in [0i32, 500, 0, 0, 2000, 4000, 0, 2000, 0, 4000, 2000] {
    ///     file.extend(number.to_le_bytes());
    /// }
    /// let job = um::Job::read(&file)?;
    /// assert_eq!((job.mesh.len(), job.radius), (1, 500));
    /// assert_eq!(um::Job::read(&file[..50]).unwrap_err(), Refusal::Cut { whole: 0 });
    /// # Ok::<(), Refusal>(())
    /// ```
    pub fn read(bytes: &[u8]) -> Result<Job, Refusal> {
        let declared = |at: usize| {
            let count = bytes.get(at..at + 4).map_or(0, |count| u32::from_le_bytes(count.try_into().expect("four bytes")));
            (count as usize).min(MOST_TRIANGLES)
        };
        let (mut numbers, mut questions) = (vec![0; 9 * declared(6)], vec![0; 5 * declared(10)]);
        let (mut measures, mut sizes) = ([0; 2], [0; 2]);
        match Refusal::of(door::read_job_um(bytes, &mut numbers, &mut questions, &mut measures, &mut sizes)) {
            Err(Refusal::Cut { .. }) => Err(Refusal::Cut { whole: sizes[0] }),
            Err(refusal) => Err(refusal),
            Ok(()) => Ok(Job {
                mesh: Mesh { numbers },
                floor: measures[0],
                radius: measures[1],
                questions: questions.chunks_exact(5).map(|q| Question { p: [q[0], q[1]], q: [q[2], q[3]], r: q[4] }).collect(),
            }),
        }
    }
}

/// The index of a mesh in micrometres. It borrows the mesh that it was built from.
#[derive(Clone, Debug)]
pub struct Index<'mesh> {
    mesh: &'mesh Mesh,
    built: BuiltUm,
    starts: Vec<u32>,
    members: Vec<u32>,
}

/// A set-up height, in micrometres.
#[derive(Clone, Copy, Debug, PartialEq, Eq)]
pub struct SetUp {
    /// The floor, or the highest top over it of a triangle whose box meets the question's.
    pub height: i32,
    /// The number of triangles looked at.
    pub count: u32,
    /// The number of boxes that meet the question's, grown by r.
    pub meeting: u32,
}

impl<'mesh> Index<'mesh> {
    /// Builds the index of a mesh over a floor, for a radius. Refusals: 1, 3, 2, 4, 5, 6; coordinates and the floor are of magnitude at
    /// most 1,000,000,000 here, and the radius from 0 to that.
    pub fn build(mesh: &'mesh Mesh, floor: i32, r: i32) -> Result<Index<'mesh>, Refusal> {
        let side = (mesh.len() as f64).sqrt() as usize + 2;
        let mut room = 24 * mesh.len() + 64;
        loop {
            let (mut starts, mut members, mut built) = (vec![0; side * side + 1], vec![0; room], BuiltUm::default());
            match Refusal::of(door::build_um(&mesh.numbers, floor, r, &mut starts, &mut members, &mut built)) {
                Err(Refusal::Members) if room < MOST_MEMBERS => room = (room * 4).min(MOST_MEMBERS),
                Err(refusal) => return Err(refusal.at(built.bad)),
                Ok(()) => return Ok(Index { mesh, built, starts, members }),
            }
        }
    }

    /// Marks for questions to this index, none set.
    pub fn marks(&self) -> Marks {
        Marks { marks: vec![0; self.mesh.len()], stamp: 0 }
    }

    /// The set-up height on the way from p to q. Refusals: 1 (marks of another mesh), 2.
    ///
    /// ```
    /// use mandrikelo::um::{Index, Mesh};
    /// let mesh = Mesh::from_numbers(vec![0, 0, 2000, 4000, 0, 2000, 0, 4000, 2000]);
    /// let index = Index::build(&mesh, 0, 500)?;
    /// let mut marks = index.marks();
    /// assert_eq!(index.setup_height(&mut marks, [-500, 0], [-500, 0], 500)?.height, 2000); // it touches
    /// assert_eq!(index.setup_height(&mut marks, [-501, 0], [-501, 0], 500)?.height, 0);
    /// # Ok::<(), mandrikelo::Refusal>(())
    /// ```
    pub fn setup_height(&self, marks: &mut Marks, p: [i32; 2], q: [i32; 2], r: i32) -> Result<SetUp, Refusal> {
        let (mut height, mut counts) = ([0], [0; 3]);
        let number = door::setup_height(
            &self.mesh.numbers, &self.built, &self.starts, &self.members, &mut marks.marks, marks.stamp, p, q, r, &mut height, &mut counts,
        );
        marks.stamp = counts[1];
        Refusal::of(number)?;
        Ok(SetUp { height: height[0], count: counts[0], meeting: counts[2] })
    }
}

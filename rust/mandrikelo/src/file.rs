use crate::{door, Mesh, Refusal, MOST_TRIANGLES};

/// A question of a job: the swept disk from p to q with radius r.
#[derive(Clone, Copy, Debug, PartialEq)]
#[allow(missing_docs)]
pub struct Question {
    pub p: [f64; 2],
    pub q: [f64; 2],
    pub r: f64,
}

/// What stands in a job file.
#[derive(Clone, Debug, PartialEq)]
#[allow(missing_docs)]
pub struct Job {
    pub mesh: Mesh,
    pub floor: f64,
    pub radius: f64,
    pub questions: Vec<Question>,
}

impl Mesh {
    /// The mesh of a binary STL file. Refusals: 14, 18, 19 with the whole triangles before the cut, 21, 20.
    ///
    /// ```
    /// use mandrikelo::{Mesh, Refusal};
    /// let mut file = vec![b' '; 80];
    /// file.extend(2u32.to_le_bytes());
    /// file.extend([0; 50]); // two are declared, one is there
    /// assert_eq!(Mesh::from_stl(&file).unwrap_err(), Refusal::Cut { whole: 1 });
    /// file.extend([0; 50]);
    /// assert_eq!(Mesh::from_stl(&file)?.len(), 2);
    /// # Ok::<(), Refusal>(())
    /// ```
    pub fn from_stl(bytes: &[u8]) -> Result<Mesh, Refusal> {
        let room = (bytes.len().saturating_sub(84) / 50).min(MOST_TRIANGLES);
        let declared = bytes.get(80..84).map_or(0, |count| u32::from_le_bytes(count.try_into().expect("four bytes")));
        // a file that is too short for its count is refused before its mesh is written, but its count has to have room
        let room = room.max((declared as usize).min(MOST_TRIANGLES));
        let (mut numbers, mut count) = (vec![0.; 9 * room], [0]);
        match Refusal::of(door::read_stl(bytes, &mut numbers, &mut count)) {
            Err(Refusal::Cut { .. }) => Err(Refusal::Cut { whole: count[0] }),
            Err(refusal) => Err(refusal),
            Ok(()) => {
                numbers.truncate(9 * count[0] as usize);
                Ok(Mesh { numbers })
            }
        }
    }
}

impl Job {
    /// Reads a job file. Refusals: 14, 15, 16, 17, 18, 19 with the whole triangles before the cut, 21, 20.
    pub fn read(bytes: &[u8]) -> Result<Job, Refusal> {
        let declared = |at: usize| {
            let count = bytes.get(at..at + 4).map_or(0, |count| u32::from_le_bytes(count.try_into().expect("four bytes")));
            (count as usize).min(MOST_TRIANGLES)
        };
        let (mut numbers, mut questions) = (vec![0.; 9 * declared(6)], vec![0.; 5 * declared(10)]);
        let (mut measures, mut sizes) = ([0.; 2], [0; 2]);
        match Refusal::of(door::read_job(bytes, &mut numbers, &mut questions, &mut measures, &mut sizes)) {
            Err(Refusal::Cut { .. }) => Err(Refusal::Cut { whole: sizes[0] }),
            Err(refusal) => Err(refusal),
            Ok(()) => {
                let questions = questions.chunks_exact(5).take(sizes[1] as usize);
                Ok(Job {
                    mesh: Mesh { numbers },
                    floor: measures[0],
                    radius: measures[1],
                    questions: questions.map(|q| Question { p: [q[0], q[1]], q: [q[2], q[3]], r: q[4] }).collect(),
                })
            }
        }
    }

    /// Its bytes, which read back to the same numbers. Refusals: 1, 18, 20.
    ///
    /// ```
    /// use mandrikelo::{Job, Mesh, Question};
    /// let job = Job {
    ///     mesh: Mesh::from_numbers(vec![0., 0., 2., 4., 0., 2., 0., 4., 2.]), floor: 0., radius: 1.,
    ///     questions: vec![Question { p: [1., 1.], q: [1., 1.], r: 1. }],
    /// };
    /// let bytes = job.write()?;
    /// assert_eq!(bytes.len(), 30 + 72 + 40);
    /// assert_eq!(Job::read(&bytes)?, job);
    /// # Ok::<(), mandrikelo::Refusal>(())
    /// ```
    pub fn write(&self) -> Result<Vec<u8>, Refusal> {
        let questions: Vec<f64> = self.questions.iter().flat_map(|q| [q.p[0], q.p[1], q.q[0], q.q[1], q.r]).collect();
        let (mut bytes, mut length) = (vec![0; 30 + 8 * (self.mesh.numbers.len() + questions.len())], [0]);
        Refusal::of(door::write_job(&self.mesh.numbers, self.floor, self.radius, &questions, &mut bytes, &mut length))?;
        bytes.truncate(length[0]);
        Ok(bytes)
    }
}

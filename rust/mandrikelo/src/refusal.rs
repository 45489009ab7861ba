use std::fmt;

/// Why the planner did not answer. Each case has document 01's or 02's number; the two that tell more carry it.
///
/// ```
/// use mandrikelo::{Mesh, Refusal};
/// let cut = [0u8; 100]; // 80 bytes of heading, a count of 0
/// assert_eq!(Mesh::from_stl(&cut).unwrap_err(), Refusal::Count);
/// assert_eq!(Refusal::Count.number(), 18);
/// println!("{}", Refusal::Cut { whole: 734 }); // what happened, and behind it what to do next
/// ```
#[derive(Clone, Copy, Debug, PartialEq, Eq, Hash)]
#[non_exhaustive]
pub enum Refusal {
    /// 1: a table is not a whole number of triangles, runs or holders, or a mesh has over 65,536 triangles; or marks of another mesh.
    Lengths,
    /// 2: a question's number, a radius, the floor or a tolerance lies outside its range.
    Range,
    /// 3: the mesh is empty.
    Empty,
    /// 4: a coordinate is not finite, or its magnitude is over 1e6; which one came first in mesh order.
    Coordinate {
        /// The triangle, counted from 0.
        triangle: u32,
        /// Which of its nine numbers, counted from 0: x, y, z of the first corner, then of the second and the third.
        number: u32,
    },
    /// 5: over 65,536 columns or rows, or over 1,048,576 cells.
    Cells,
    /// 6: over 16,777,216 members.
    Members,
    /// 7: the tables are not an index of this mesh, as far as the call looks.
    Index,
    /// 8: no section, over 32, an invalid one, or a corner radius that is not within 0 to r.
    Sections,
    /// 9: a parameter of the plan.
    Parameter,
    /// 10: a level above the stock's top, or deeper than the cutting length less 16 tolerances.
    Reach,
    /// 11: more levels than room.
    LevelRoom,
    /// 12: over 65,535 intervals or samples on a level.
    Fine,
    /// 13: more joined runs than room.
    RunRoom,
    /// 14: the file is shorter than its head.
    Head,
    /// 15: the file's mark is another one.
    Mark,
    /// 16: the file's version is another one.
    Version,
    /// 17: the file's sixth byte is not 0.
    SixthByte,
    /// 18: no triangle, or too many triangles, questions or moves.
    Count,
    /// 19: the file has fewer bytes than its counts ask for: a copy that broke off.
    Cut {
        /// The triangles that stand whole before the cut.
        whole: u32,
    },
    /// 20: a number in the file is not finite.
    NotFinite,
    /// 21: the file has more bytes than its counts ask for.
    Surplus,
    /// 22: the lent bytes are shorter than the job that is to be written.
    JobRoom,
    /// 23: the box table is not five numbers a triangle.
    Boxes,
    /// 24: a beam, or a curved end without the enclosure.
    Shape,
    /// 25: the lent table is too short for the tool's sections.
    SectionRoom,
    /// 26: the heights of the moves are not in their order, or a number is not finite or over 1e6 in magnitude.
    Heights,
    /// 27: the first id is 0, or the ids do not fit.
    FirstId,
    /// 28: a move of a kind that is not known.
    Kind,
    /// 29: the state of the moves is not one of this table.
    State,
    /// A number that this crate does not know: the archive is newer.
    Other(u32),
}

const TABLE: [(Refusal, &str, &str); 29] = [
    (Refusal::Lengths, "a table is not a whole number of entries, or the mesh has over 65,536 triangles",
        "split the part, or export it with a coarser chord tolerance"),
    (Refusal::Range, "a number lies outside its range (points 3e6; floor, lift and raise 1e6 in magnitude; radii 0 to 1e6; of a job in micrometres all 1e9)",
        "check the points, the radius, the floor, by how much it is raised, and the unit"),
    (Refusal::Empty, "the mesh is empty", "check that the file was exported with its solid"),
    (Refusal::Coordinate { triangle: 0, number: 0 }, "a coordinate is not finite, or its magnitude is over 1e6",
        "export the part again; if it lies far from the origin, move it there, and check the unit"),
    (Refusal::Cells, "the part would take over 65,536 columns or rows, or over 1,048,576 cells", "split the part"),
    (Refusal::Members, "the cells would hold over 16,777,216 triangle numbers", "split the part, or export it with fewer long thin triangles"),
    (Refusal::Index, "the tables are not an index of this mesh", "build the index again from the mesh as it is now"),
    (Refusal::Sections, "no section, over 32 of them, one that is not valid, or a corner radius that is not within 0 to the radius",
        "check the tool: z0 and rise 0 or more, 0 <= r0 <= r1, r1 over 0; of a bull-nose, 0 <= corner radius <= radius"),
    (Refusal::Parameter, "a parameter of the plan lies outside its range",
        "check them: tolerance 1e-7 to 0.01; level tolerance from the tolerance to 0.1; stepover over 16 tolerances and at most twice the \
         radius; stock to leave 0 or more; stock bottom at most the floor, stock top over it"),
    (Refusal::Reach, "a level lies above the stock's top, or deeper than the cutting length less 16 tolerances",
        "check the stock's top, or take a tool with a longer cutting length"),
    (Refusal::LevelRoom, "more levels than room", "lend a longer table of levels"),
    (Refusal::Fine, "over 65,535 rows or samples on a level", "take a larger stepover or a larger radius, or split the part"),
    (Refusal::RunRoom, "more runs than room", "lend a longer table of runs, or take a larger stepover"),
    (Refusal::Head, "the file is shorter than its head: a copy that broke off", "copy the file again"),
    (Refusal::Mark, "the file does not begin with its mark, FTM for a job and FTP for a path", "check that it is the file that you meant"),
    (Refusal::Version, "the file is of another version", "take the reader of that version: 1 counts in f64s, 2 in whole micrometres"),
    (Refusal::SixthByte, "the file's sixth byte is not 0", "write the file again: its head is damaged"),
    (Refusal::Count, "no triangle, or over 65,536 triangles, questions or moves",
        "export the part with its solid; if it is too fine, with a coarser chord tolerance"),
    (Refusal::Cut { whole: 0 }, "the file has fewer bytes than its counts ask for: a copy that broke off",
        "copy the file again, and count it before you believe it"),
    (Refusal::NotFinite, "a number in the file is not finite", "export the file again"),
    (Refusal::Surplus, "the file has more bytes than its counts ask for", "copy the file again: two files may be stuck together, or its count is damaged"),
    (Refusal::JobRoom, "the lent bytes are shorter than the job", "lend 30 bytes, 72 a triangle and 40 a question"),
    (Refusal::Boxes, "the box table is not five numbers a triangle", "lend five numbers a triangle"),
    (Refusal::Shape, "the shape has no sections of its own: a beam, or a ball or bull end without the enclosure",
        "say `enclose yes` on the sheet to have a ball or bull end taken as the flat end around it"),
    (Refusal::SectionRoom, "the table is too short for the tool's sections", "lend 128 numbers"),
    (Refusal::Heights, "the heights are not in their order, or a number is not finite or over 1e6",
        "see that feed <= retract <= clearance <= the start's z, and that no run lies above the feed height"),
    (Refusal::FirstId, "the first id is 0, or the ids would not fit", "begin with id 1"),
    (Refusal::Kind, "a move of a kind that is not known", "write the path again: 0 is a rapid, 1 a cut"),
    (Refusal::State, "the state of the moves is not one of this table of runs", "begin the moves again"),
];

impl Refusal {
    /// The refusal with a door's number; what it tells is put in by whoever knows it. Nothing for 0.
    pub(crate) fn of(number: u32) -> Result<(), Refusal> {
        match (number as usize).checked_sub(1).map(|row| TABLE.get(row)) {
            None => Ok(()),
            Some(known) => Err(known.map_or(Refusal::Other(number), |row| row.0)),
        }
    }

    /// With the place that a build tells after 4.
    pub(crate) fn at(self, [triangle, number]: [u32; 2]) -> Refusal {
        match self {
            Refusal::Coordinate { .. } => Refusal::Coordinate { triangle, number },
            other => other,
        }
    }

    /// Document 01's or 02's number.
    pub fn number(self) -> u32 {
        match self {
            Refusal::Other(number) => number,
            _ => self.row().map_or(0, |row| row as u32 + 1),
        }
    }

    /// What happened, in words.
    pub fn text(self) -> &'static str {
        self.row().map_or("a refusal that this program does not know", |row| TABLE[row].1)
    }

    /// What to do next, in words.
    pub fn advice(self) -> &'static str {
        self.row().map_or("use the crate that came with the archive", |row| TABLE[row].2)
    }

    fn row(self) -> Option<usize> {
        TABLE.iter().position(|(refusal, _, _)| std::mem::discriminant(refusal) == std::mem::discriminant(&self))
    }
}

/// What happened, what it tells, and what to do next.
impl fmt::Display for Refusal {
    fn fmt(&self, f: &mut fmt::Formatter<'_>) -> fmt::Result {
        write!(f, "refusal {}: {}", self.number(), self.text())?;
        match self {
            Refusal::Cut { whole } => write!(f, " ({whole} whole triangles before the cut)")?,
            Refusal::Coordinate { triangle, number } => {
                let (corner, axis) = (number / 3, ["x", "y", "z"][*number as usize % 3]);
                write!(f, " (the first one: {axis} of corner {corner} of triangle {triangle}, counted from 0)")?
            }
            _ => {}
        }
        write!(f, "; {}", self.advice())
    }
}

impl std::error::Error for Refusal {}

#[cfg(test)]
mod tests {
    use super::*;

    #[test]
    fn each_number_has_its_words() {
        let all: Vec<Refusal> = (1..=29).map(|number| Refusal::of(number).unwrap_err()).collect();
        assert!(Refusal::of(0).is_ok());
        assert_eq!(all.iter().map(|refusal| refusal.number()).collect::<Vec<_>>(), (1..=29).collect::<Vec<_>>());
        for (k, refusal) in all.iter().enumerate() {
            assert!(refusal.text().len() > 10 && refusal.advice().len() > 10, "{refusal}");
            assert!(all[..k].iter().all(|other| other.text() != refusal.text()), "{refusal}");
            assert!(refusal.to_string().starts_with(&format!("refusal {}: ", k + 1)) && refusal.to_string().ends_with(refusal.advice()));
        }
        assert_eq!(Refusal::of(30).unwrap_err().number(), 30);
    }

    #[test]
    fn what_they_tell() {
        assert!(Refusal::Cut { whole: 734 }.to_string().contains("(734 whole triangles before the cut)"));
        let place = Refusal::Coordinate { triangle: 0, number: 0 }.at([12, 7]);
        assert!(place.to_string().contains("y of corner 2 of triangle 12, counted from 0"), "{place}");
        assert_eq!(Refusal::Range.at([12, 7]), Refusal::Range);
    }
}

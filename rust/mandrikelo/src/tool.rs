use crate::{door, Index, Mesh, Refusal};

/// One part of a tool, seen from below: flat at height `z0` over the tip out to radius `r0`, then rising to radius `r1`.
#[derive(Clone, Copy, Debug, PartialEq)]
pub struct Section {
    /// Height over the tip.
    pub z0: f64,
    /// The radius of the flat part.
    pub r0: f64,
    /// The largest radius.
    pub r1: f64,
    /// A slope, not a height: by how much it rises a unit of radius, from `r0` on.
    pub rise: f64,
}

/// A tool of one to 32 sections.
#[derive(Clone, Debug, PartialEq)]
pub struct Tool {
    pub(crate) numbers: Vec<f64>,
}

/// The shape of a cutter's end.
#[derive(Clone, Copy, Debug, PartialEq, Eq)]
#[allow(missing_docs)]
pub enum Shape {
    Flat,
    Ball,
    Bull,
    Drill,
    Chamfer,
    Beam,
}

/// A holder: a cone from one height and radius to another, or a cylinder where the two radii do not widen.
#[derive(Clone, Copy, Debug, PartialEq)]
#[allow(missing_docs)]
pub struct Holder {
    pub low_z: f64,
    pub high_z: f64,
    pub low_radius: f64,
    pub high_radius: f64,
}

/// A neck: its length above the cutting length, and the tool's radius just above it.
#[derive(Clone, Copy, Debug, PartialEq)]
#[allow(missing_docs)]
pub struct Neck {
    pub length: f64,
    pub radius_above: f64,
}

/// A tool's sheet.
#[derive(Clone, Debug, PartialEq)]
pub struct Sheet {
    /// The shape of its end.
    pub shape: Shape,
    /// Whether a ball or bull end is to be taken as the flat end around it.
    pub enclose: bool,
    /// The cutting diameter.
    pub diameter: f64,
    /// A chamfer's diameter at the tip, else 0.
    pub tip_diameter: f64,
    /// A chamfer's or drill's height over the tip at the full radius, else 0.
    pub tip_height: f64,
    /// Where the cutting edges end, over the tip.
    pub cutting_length: f64,
    /// Where the holder begins, over the tip.
    pub stickout: f64,
    /// The radius just above the cutting length.
    pub radius_above: f64,
    /// The neck, if there is one.
    pub neck: Option<Neck>,
    /// The holders.
    pub holders: Vec<Holder>,
}

impl Tool {
    /// A tool of these sections. Whether they are valid is told by the questions.
    pub fn from_sections(sections: &[Section]) -> Tool {
        Tool { numbers: sections.iter().flat_map(|s| [s.z0, s.r0, s.r1, s.rise]).collect() }
    }

    /// The sections of a tool's sheet, which the section questions accept. Refusals: 2, 24, 8.
    ///
    /// ```
    /// use mandrikelo::{Holder, Section, Shape, Sheet, Tool};
    /// let sheet = Sheet {
    ///     shape: Shape::Flat, enclose: false, diameter: 10., tip_diameter: 0., tip_height: 0., cutting_length: 22., stickout: 40.,
    ///     radius_above: 5., neck: None, holders: vec![Holder { low_z: 40., high_z: 60., low_radius: 10., high_radius: 15. }],
    /// };
    /// let tool = Tool::from_sheet(&sheet)?;
    /// assert_eq!(tool.sections().len(), 3);
    /// assert_eq!(tool.sections()[2], Section { z0: 40., r0: 10., r1: 15., rise: 4. });
    /// # Ok::<(), mandrikelo::Refusal>(())
    /// ```
    pub fn from_sheet(sheet: &Sheet) -> Result<Tool, Refusal> {
        let neck = sheet.neck.unwrap_or(Neck { length: 0., radius_above: 0. });
        let words = [
            sheet.diameter, sheet.tip_diameter, sheet.tip_height, sheet.cutting_length, sheet.stickout, neck.length, sheet.radius_above,
            neck.radius_above,
        ];
        let holders: Vec<f64> =
            sheet.holders.iter().flat_map(|h| [h.low_z, h.high_z, h.low_radius, h.high_radius]).collect();
        let (mut numbers, mut count) = (vec![0.; 128], [0]);
        let shape = sheet.shape as u32;
        Refusal::of(door::sections_of(shape, sheet.enclose, sheet.neck.is_some(), &words, &holders, &mut numbers, &mut count))?;
        numbers.truncate(4 * count[0] as usize);
        Ok(Tool { numbers })
    }

    /// Whether the section questions take it: asks the planner itself, over one triangle. Refusal: 8.
    ///
    /// ```
    /// use mandrikelo::{Refusal, Section, Tool};
    /// assert_eq!(Tool::from_sections(&[Section { z0: 0., r0: 2., r1: 1., rise: 0. }]).accepted(), Err(Refusal::Sections));
    /// ```
    pub fn accepted(&self) -> Result<(), Refusal> {
        let mesh = Mesh::from_numbers(vec![0., 0., 0., 1., 0., 0., 0., 1., 0.]);
        let index = Index::build(&mesh, 0.0, 1.0)?;
        index.max_sections(&mut index.marks(), [0., 0.], self).map(|_| ())
    }

    /// Its sections, tip upward.
    pub fn sections(&self) -> Vec<Section> {
        self.numbers.chunks_exact(4).map(|s| Section { z0: s[0], r0: s[1], r1: s[2], rise: s[3] }).collect()
    }
}

use std::fmt;

/// What gave a height. Triangles, corners and edges are counted from 0; edge k runs from corner k to the next.
#[derive(Clone, Copy, Debug, PartialEq, Eq)]
pub enum Touch {
    /// Nothing stands above the floor.
    Floor,
    /// A corner of a triangle.
    Corner {
        /// The triangle.
        triangle: u32,
        /// Which of its three.
        which: u32,
    },
    /// An edge of a triangle.
    Edge {
        /// The triangle.
        triangle: u32,
        /// Which of its three.
        which: u32,
    },
    /// The face of a triangle.
    Face {
        /// The triangle.
        triangle: u32,
    },
}

impl Touch {
    pub(crate) fn of([triangle, kind, which]: [u32; 3]) -> Touch {
        match kind {
            1 => Touch::Corner { triangle, which },
            2 => Touch::Edge { triangle, which },
            3 => Touch::Face { triangle },
            _ => Touch::Floor,
        }
    }
}

impl fmt::Display for Touch {
    fn fmt(&self, f: &mut fmt::Formatter<'_>) -> fmt::Result {
        match self {
            Touch::Floor => write!(f, "the floor"),
            Touch::Corner { triangle, which } => write!(f, "corner {which} of triangle {triangle}"),
            Touch::Edge { triangle, which } => write!(f, "edge {which} of triangle {triangle}"),
            Touch::Face { triangle } => write!(f, "the face of triangle {triangle}"),
        }
    }
}

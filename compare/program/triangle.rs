//! One triangle: distances, the swept disk, the bull-nose cutter, a section.

use crate::case::Case;
use crate::doors::{self, raw};
use crate::inputs;
use crate::parts::{Part, Tally, Verdict, agree};
use crate::rng::Rng;
use oracle_doc::flat::door::{self, Triangle};
use oracle_doc::numbers::Numbers;

pub const PLANE: Part = Part {
    name: "plane",
    doors: &["dist2_to_segment", "distance_xy"],
    make: make_plane,
    compare: compare_plane,
    widths: &[("asked", 13)],
    unit: "triangles and points",
    share: 1_000,
};

pub const CAPSULE: Part = Part {
    name: "capsule",
    doors: &["max_in_capsule"],
    make: make_capsule,
    compare: compare_capsule,
    widths: &[("asked", 15)],
    unit: "triangles and capsules",
    share: 5_000,
};

pub const BULL_CONTACT: Part = Part {
    name: "bull_contact",
    doors: &["bull_contact", "bull_profile"],
    make: make_bull_contact,
    compare: compare_bull_contact,
    widths: &[("asked", 14)],
    unit: "triangles and bull-nose cutters",
    share: 1_000,
};

pub const SECTION_CONTACT: Part = Part {
    name: "section_contact",
    doors: &["section_contact"],
    make: make_section_contact,
    compare: compare_section_contact,
    widths: &[("asked", 15)],
    unit: "triangles and sections",
    share: 1_000,
};

fn agree_contact(what: &str, ours: Result<Option<doors::Touched>, String>, theirs: Option<f64>) -> Verdict {
    match (ours.map_err(|e| format!("{what}: {e}"))?, theirs) {
        (Some((a, _)), Some(b)) => agree(what, a, b),
        (None, None) => Ok(()),
        (a, b) => Err(format!("{what}: ours {a:?}, the Rust's {b:?}")),
    }
}

fn eps(rng: &mut Rng, t: &[f64; 9]) -> f64 {
    let scale = t.iter().fold(1f64, |m, v| m.max_of(v.abs()));
    if rng.one_in(16) { rng.pick(&[2e-6, 1e-6, 1e-12]) } else { 1e-12 * scale }
}

fn make_plane(rng: &mut Rng, _: u64, _: bool) -> Case {
    let mut asked = vec![];
    for _ in 0..256 {
        let f = inputs::family(rng);
        let t = inputs::triangle(rng, f);
        let p = inputs::point_near(rng, f, &t, 1.);
        let q = inputs::point_near(rng, f, &t, 1.);
        asked.extend(t);
        asked.extend(p);
        asked.extend(if rng.one_in(8) { p } else { q });
    }
    Case::new("plane").floats("asked", asked)
}

fn compare_plane(case: &Case, tally: &mut Tally) -> Verdict {
    for a in case.f("asked").chunks_exact(13) {
        let t: [f64; 9] = a[..9].try_into().unwrap();
        let (p, q) = ([a[9], a[10]], [a[11], a[12]]);
        let ours = unsafe { raw::mandrikelo_distance_xy(t.as_ptr(), p[0], p[1]) };
        agree("distance_xy", ours, Triangle::new(&t).distance_xy(p))?;
        for k in 0..3 {
            let v = [t[3 * k], t[3 * k + 1]];
            let ours = unsafe { raw::mandrikelo_dist2_to_segment(v[0], v[1], p[0], p[1], q[0], q[1]) };
            agree("dist2_to_segment", ours, door::dist2_to_segment(v, p, q))?;
        }
        tally.add("distances", 4);
        tally.unit();
    }
    Ok(())
}

fn make_capsule(rng: &mut Rng, _: u64, _: bool) -> Case {
    let mut asked = vec![];
    for _ in 0..256 {
        let f = inputs::family(rng);
        let t = inputs::triangle(rng, f);
        let r = inputs::radius(rng, f);
        let p = inputs::point_near(rng, f, &t, r);
        let q = if rng.one_in(3) { p } else { inputs::point_near(rng, f, &t, r) };
        asked.extend(t);
        asked.extend([p[0], p[1], q[0], q[1], r, eps(rng, &t)]);
    }
    Case::new("capsule").floats("asked", asked)
}

fn compare_capsule(case: &Case, tally: &mut Tally) -> Verdict {
    for a in case.f("asked").chunks_exact(15) {
        let t: [f64; 9] = a[..9].try_into().unwrap();
        let q = &a[9..];
        let theirs = Triangle::new(&t).max_in_capsule([q[0], q[1]], [q[2], q[3]], q[4], q[5]);
        agree_contact("max_in_capsule", doors::max_in_capsule(&t, q), theirs)?;
        tally.add("contacts", 1);
        tally.unit();
        tally.note("with a height", theirs.is_some() as u64);
    }
    Ok(())
}

fn make_bull_contact(rng: &mut Rng, _: u64, _: bool) -> Case {
    let mut asked = vec![];
    for _ in 0..64 {
        let f = inputs::family(rng);
        let t = inputs::triangle(rng, f);
        let r = inputs::radius(rng, f);
        let p = inputs::point_near(rng, f, &t, r);
        let rc = inputs::corner(rng, r);
        let floor = match rng.below(3) {
            0 => f64::NEG_INFINITY,
            1 => t[2 + 3 * rng.below(3) as usize],
            _ => inputs::coordinate(rng, f),
        };
        asked.extend(t);
        asked.extend([p[0], p[1], r, rc, floor]);
    }
    Case::new("bull_contact").floats("asked", asked)
}

fn compare_bull_contact(case: &Case, tally: &mut Tally) -> Verdict {
    for a in case.f("asked").chunks_exact(14) {
        let t: [f64; 9] = a[..9].try_into().unwrap();
        let q = &a[9..];
        let theirs = Triangle::new(&t).bull_contact([q[0], q[1]], q[2], q[3], q[4]);
        agree_contact("bull_contact", doors::bull_contact(&t, q), theirs)?;
        let d = (q[0] - t[0]).hypot_of(q[1] - t[1]);
        agree("bull_profile", unsafe { raw::mandrikelo_bull_profile(d, q[2], q[3]) }, door::bull_profile(d, q[2], q[3]))?;
        tally.add("contacts", 1);
        tally.add("profiles", 1);
        tally.unit();
        tally.note("with a height", theirs.is_some() as u64);
    }
    Ok(())
}

fn make_section_contact(rng: &mut Rng, _: u64, _: bool) -> Case {
    let mut asked = vec![];
    for _ in 0..64 {
        let f = inputs::family(rng);
        let t = inputs::triangle(rng, f);
        let s = inputs::section(rng);
        let reach = if rng.one_in(2) { s[1] } else { s[2] };
        asked.extend(t);
        asked.extend(inputs::point_near(rng, f, &t, reach));
        asked.extend(s);
    }
    Case::new("section_contact").floats("asked", asked)
}

fn compare_section_contact(case: &Case, tally: &mut Tally) -> Verdict {
    for a in case.f("asked").chunks_exact(15) {
        let t: [f64; 9] = a[..9].try_into().unwrap();
        let (p, s): (&[f64], [f64; 4]) = (&a[9..11], a[11..].try_into().unwrap());
        let theirs = Triangle::new(&t).section_contact([p[0], p[1]], s);
        agree_contact("section_contact", doors::section_contact(&t, p, &s), theirs)?;
        tally.add("contacts", 1);
        tally.unit();
        tally.note("with a height", theirs.is_some() as u64);
    }
    Ok(())
}

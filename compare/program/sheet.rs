//! Sections from a tool's sheet: camlib's own `sections_of` beside ours, and every accepted list asked in both section questions.

use crate::case::Case;
use crate::doors::{self, Handed, Lent, Word};
use crate::inputs;
use crate::model;
use crate::parts::{Part, Tally, Verdict};
use crate::rng::Rng;
use oracle_doc::flat::door;

unsafe extern "C" {
    pub fn mandrikelo_sections_of(
        shape: u32, enclose: bool, neck: bool, measures: *const f64, holders: *const f64, holders_len: usize, sections: *mut f64,
        sections_len: usize, count: *mut u32,
    ) -> u32;
}

pub const PART: Part = Part {
    name: "sheet",
    doors: &["sections_of", "max_sections", "sections_chord_clear"],
    make,
    compare,
    widths: &[("holders", 4)],
    unit: "sheets",
    share: 5_000,
};

/// The number or one beside it; of zero the smallest there is.
fn near(rng: &mut Rng, x: f64) -> f64 {
    if x.abs() < 1e-300 { rng.pick(&[x, 5e-324, -5e-324]) } else { inputs::neighbour(rng, x) }
}

/// A length or a radius: ordinary, or at an end of its range.
fn size(rng: &mut Rng, most: f64) -> f64 {
    match rng.below(12) {
        0 => rng.pick(&[0., -0., 5e-324, 1e-300, 1e-9]),
        1 => near(rng, most),
        2 => most,
        3 => -rng.between(0., 5.),
        4 => rng.below(40) as f64 / 2.,
        _ => rng.between(0.05, 60.),
    }
}

/// The height that gives about the rise over the width: the steepest, any, or none.
fn height(rng: &mut Rng, width: f64) -> f64 {
    match rng.below(8) {
        0 => rng.pick(&[0., -0., -1., 1e300]),
        1 | 2 => near(rng, 1e9 * width),
        3 => near(rng, 0.),
        _ => width * rng.between(0., 4.),
    }
}

fn holder(rng: &mut Rng) -> [f64; 4] {
    let low = size(rng, 1e6);
    let r0 = size(rng, 1e6);
    let r1 = match rng.below(6) {
        0 => r0,
        1 => near(rng, r0),
        2 => r0 / 2.,
        3 => size(rng, 1e6),
        _ => r0 + rng.between(0., 20.),
    };
    [low, low + height(rng, r1 - r0), r0, r1]
}

fn make(rng: &mut Rng, _: u64, damage: bool) -> Case {
    let diameter = size(rng, 2e6);
    let tip = match rng.below(5) {
        0 => near(rng, diameter),
        1 => size(rng, 2e6),
        _ => diameter * rng.unit(),
    };
    let cutting = size(rng, 1e6);
    let length = size(rng, 1e6);
    let stickout = match rng.below(8) {
        0 => near(rng, cutting),
        1 => near(rng, cutting + length),
        2 => cutting,
        3 => size(rng, 1e6),
        _ => cutting + length + rng.between(0., 40.),
    };
    let width = if rng.one_in(2) { diameter / 2. } else { diameter / 2. - tip / 2. };
    let tip_height = height(rng, width);
    let mut sheet = vec![diameter, tip, tip_height, cutting, stickout, length, size(rng, 1e6), size(rng, 1e6)];
    let count = if rng.one_in(12) { 28 + rng.below(6) } else { rng.below(4) };
    let mut holders: Vec<f64> = (0..count).flat_map(|_| holder(rng)).collect();
    // Often a sheet without a flaw, so that lists are accepted.
    if rng.one_in(2) {
        sheet.iter_mut().chain(&mut holders).for_each(|x| *x = x.abs().clamp(1e-6, 1e6));
    }
    if damage {
        match rng.below(4) {
            0 => holders.truncate((holders.len() as u64).saturating_sub(1 + rng.below(3)) as usize),
            1 if !holders.is_empty() => {
                let i = rng.below(holders.len() as u64) as usize;
                holders[i] = inputs::bad(rng, holders[i]);
            }
            _ => {
                let i = rng.below(8) as usize;
                sheet[i] = inputs::bad(rng, sheet[i]);
            }
        }
    }
    let shape = if rng.one_in(20) { rng.bits() as u32 >> rng.below(32) } else { rng.below(6) as u32 };
    let most = 4 * (3 + holders.len() as u32 / 4);
    let room = match rng.below(8) {
        0 => rng.below(most as u64 + 2) as u32,
        1 => most - 4,
        _ => most + rng.below(9) as u32,
    };
    Case::new("sheet")
        .words("asked", vec![shape, rng.below(3).min(1) as u32, rng.below(2) as u32, room])
        .floats("sheet", sheet)
        .floats("holders", holders)
}

/// The refusal, or the list: documents 01 and 02 around camlib's own answer.
fn told(shape: u32, enclose: bool, neck: bool, sheet: &[f64; 8], holders: &[f64], room: usize) -> Result<Vec<f64>, u32> {
    if holders.len() % 4 != 0 {
        return Err(1);
    }
    if sheet.iter().chain(holders).any(|x| !x.is_finite()) {
        return Err(2);
    }
    let list = door::sheet_sections(shape, enclose, neck, sheet, holders)?;
    if !model::sections_stand(&list) {
        return Err(8);
    }
    if list.len() > room {
        return Err(25);
    }
    Ok(list)
}

/// One triangle and its index, for the questions.
fn asked_over() -> &'static (Vec<f64>, Handed) {
    static OVER: std::sync::OnceLock<(Vec<f64>, Handed)> = std::sync::OnceLock::new();
    OVER.get_or_init(|| {
        let mesh = vec![0., 0., 2., 4., 0., 2., 0., 4., 2.];
        let (mut starts, mut members, mut boxes) = (Lent::room(64, 0), Lent::room(64, 0), Lent::room(5, 0.));
        let built = doors::build(&mesh, 0., 1., &mut starts, &mut members, &mut boxes);
        assert_eq!(built.refusal, 0);
        let (m, s) = (built.measures.get(), built.sizes.get());
        let measures = std::array::from_fn(|k| m[k]);
        let (starts, members, boxes) = (starts.get().to_vec(), members.get().to_vec(), boxes.get().to_vec());
        let handed = Handed { measures, sizes: [s[0], s[1], s[2]], starts, members, boxes };
        (mesh, handed)
    })
}

/// Both section questions take the list: far from the part, and now and then over it.
fn taken(list: &[f64], near: bool) -> Verdict {
    let (mesh, h) = asked_over();
    let at = if near { 1. } else { 3e6 };
    let mut marks = Lent::room(1, 0);
    let height = doors::max_sections(mesh, h, &mut marks, 0, &[at, at], list);
    let chord = doors::sections_chord_clear(mesh, h, &mut marks, 1, &[at, at, 3., at, at, 3., 0.], list);
    if height.refusal != 0 || chord.refusal != 0 || !height.intact || !chord.intact {
        return Err(format!("the list is asked and gets {} and {}", height.refusal, chord.refusal));
    }
    Ok(())
}

fn compare(case: &Case, tally: &mut Tally) -> Verdict {
    let asked = case.u("asked");
    let (shape, enclose, neck, room) = (asked[0], asked[1] == 1, asked[2] == 1, asked[3] as usize);
    let sheet: &[f64; 8] = case.f("sheet").try_into().unwrap();
    let holders = case.f("holders");
    let mut before: Vec<f64> = (0..room).map(|i| i as f64 * 3. + 0.25).collect();
    let (mut sections, mut count) = (Lent::new(&before), Lent::room(1, u32::GUARD));
    let refusal = unsafe {
        mandrikelo_sections_of(
            shape, enclose, neck, sheet.as_ptr(), holders.as_ptr(), holders.len(), sections.at(), sections.len(), count.at(),
        )
    };
    tally.add("sheets", 1);
    tally.unit();
    if !sections.intact() || !count.intact() {
        return Err("a guard word was changed".into());
    }
    let (expected, listed) = match told(shape, enclose, neck, sheet, holders, room) {
        Err(k) => (k, 0),
        Ok(list) => {
            before[..list.len()].copy_from_slice(&list);
            (0, list.len() / 4)
        }
    };
    tally.note(&format!("refusal {expected}"), 1);
    if refusal != expected {
        return Err(format!("refusal {refusal}, expected {expected}"));
    }
    if count.get()[0] as usize != listed {
        return Err(format!("{} sections, expected {listed}", count.get()[0]));
    }
    if !sections.holds(&before) {
        return Err(format!("the table holds {:?}, expected {before:?}", sections.get()));
    }
    if refusal == 0 {
        tally.note("sections", listed as u64);
        taken(&sections.get()[..4 * listed], sheet[0].to_bits() % 16 == 0)?;
    }
    Ok(())
}

//! Jobs: files of all sizes, damaged or not, beside a second reader.

use crate::case::Case;
use crate::doors::{self, Lent};
use crate::inputs;
use crate::model;
use crate::parts::{Part, Tally, Verdict};
use crate::rng::Rng;

pub const PART: Part = Part {
    name: "job",
    doors: &["read_job"],
    make: make_job,
    compare: compare_job,
    widths: &[("bytes", 1)],
    unit: "jobs",
    share: 2_000,
};

/// The job of document 01: 262 bytes.
pub fn sample_job() -> Vec<u8> {
    let mesh = [0., 0., 2., 4., 0., 2., 0., 4., 2.];
    let questions = [1., 1., 1., 1., 1., 7., 1., 7., 1., 1., 20., 1., 20., 1., 1., 1., 1., 1., 1., -1.];
    job_of(0., 1., &mesh, &questions)
}

pub fn job_of(floor: f64, r: f64, mesh: &[f64], questions: &[f64]) -> Vec<u8> {
    let mut out = b"FTM\x01\0\0".to_vec();
    out.extend((mesh.len() as u32 / 9).to_le_bytes());
    out.extend((questions.len() as u32 / 5).to_le_bytes());
    for x in [floor, r].iter().chain(mesh).chain(questions) {
        out.extend(x.to_le_bytes());
    }
    out
}

/// Each byte of document 01's job changed and each length from 0 to 300 come first; then jobs of all sizes, damaged or not.
fn make_job(rng: &mut Rng, case: u64, damage: bool) -> Case {
    let mut bytes = sample_job();
    let mut room = vec![bytes.len() as u32, 200];
    if case < 301 {
        bytes.resize(case as usize, 7);
    } else if case < 301 + 8 * 262 {
        bytes[(case as usize - 301) / 8] ^= 1 << ((case - 301) % 8);
    } else if case < 2500 + 31 * 8 {
        // NaN and infinity patterns in each field.
        let k = (case as usize - 2397) % 248;
        let pattern: u64 = [
            0x7ff0_0000_0000_0000, 0xfff0_0000_0000_0000, 0x7ff8_0000_0000_0000, 0xffff_ffff_ffff_ffff, 0x7ff0_0000_0000_0001,
            0x7fef_ffff_ffff_ffff, 0x8000_0000_0000_0000, 1,
        ][k % 8];
        bytes[14 + k / 8 * 8..22 + k / 8 * 8].copy_from_slice(&pattern.to_le_bytes());
    } else {
        let mesh: Vec<f64> = (0..9 * (1 + rng.below(8))).map(|_| finite(rng)).collect();
        let questions: Vec<f64> = (0..5 * rng.below(8)).map(|_| finite(rng)).collect();
        bytes = job_of(finite(rng), finite(rng), &mesh, &questions);
        room = vec![(mesh.len() as u64 + rng.below(12)) as u32, (questions.len() as u64 + rng.below(7)) as u32];
        if damage || rng.one_in(2) {
            match rng.below(8) {
                0 | 1 => {
                    let i = rng.below(bytes.len() as u64) as usize;
                    bytes[i] = rng.bits() as u8;
                }
                2 => {
                    let i = rng.below(14) as usize;
                    bytes[i] = bytes[i].wrapping_add(1);
                }
                3 => bytes.truncate(rng.below(bytes.len() as u64 + 1) as usize),
                4 => bytes.resize(bytes.len() + 1 + rng.below(100) as usize, 0),
                5 => {
                    let i = 6 + 4 * rng.below(2) as usize;
                    let n: u32 = rng.pick(&[0, 1, 65_535, 65_536, 65_537, u32::MAX, 0x0400_0000, 59_652_323]);
                    bytes[i..i + 4].copy_from_slice(&n.to_le_bytes());
                }
                6 => room[rng.below(2) as usize] = rng.below(30) as u32,
                _ => {
                    let i = 14 + 8 * rng.below((bytes.len() as u64 - 14) / 8) as usize;
                    let x = rng.pick(&[f64::NAN, f64::INFINITY, f64::NEG_INFINITY, f64::from_bits(0x7ff0_0000_0000_0001)]);
                    bytes[i..i + 8].copy_from_slice(&x.to_le_bytes());
                }
            }
        }
        // Counts at their limits, with the length to match.
        if rng.one_in(20_000) {
            let (n, m) = rng.pick(&[(65_536u32, 0u32), (65_537, 0), (1, 65_536), (1, 65_537), (65_535, 3)]);
            bytes = job_of(1., 2., &[], &[]);
            bytes[6..10].copy_from_slice(&n.to_le_bytes());
            bytes[10..14].copy_from_slice(&m.to_le_bytes());
            bytes.resize(30 + 72 * n as usize + 40 * m as usize, 0);
            room = vec![9 * 65_540, 5 * 65_540];
        }
    }
    Case::new("job").bytes("bytes", bytes).words("room", room)
}

pub fn finite(rng: &mut Rng) -> f64 {
    loop {
        let x = inputs::any(rng);
        if x.is_finite() {
            return x;
        }
    }
}

fn compare_job(case: &Case, tally: &mut Tally) -> Verdict {
    let (bytes, room) = (case.b("bytes"), case.u("room"));
    let table = |n: u32, k: f64| (0..n).map(|i| i as f64 * k + 0.25).collect::<Vec<_>>();
    let (mut mesh_before, mut questions_before) = (table(room[0], 3.), table(room[1], -7.));
    let (mut mesh, mut questions) = (Lent::new(&mesh_before), Lent::new(&questions_before));
    let ours = doors::read_job(bytes, &mut mesh, &mut questions);
    tally.add("jobs", 1);
    tally.unit();
    if !ours.intact {
        return Err("a guard word was changed".into());
    }
    let mut answer = ([0., 0.], [0, 0]);
    let refusal = match model::job(bytes, room[0] as usize, room[1] as usize) {
        Err((refusal, whole)) => {
            answer.1[0] = whole;
            refusal
        }
        Ok((floor, radius, m, q)) => {
            answer = ([floor, radius], [m.len() as u32 / 9, q.len() as u32 / 5]);
            mesh_before[..m.len()].copy_from_slice(&m);
            questions_before[..q.len()].copy_from_slice(&q);
            0
        }
    };
    tally.note(&format!("refusal {refusal}"), 1);
    if ours.refusal != refusal {
        return Err(format!("job: refusal {} where document 01 has {refusal}", ours.refusal));
    }
    if ours.sizes != answer.1 || ours.measures.iter().zip(answer.0).any(|(a, b)| a.to_bits() != b.to_bits()) {
        return Err(format!("job: {:?} {:?}, expected {answer:?}", ours.measures, ours.sizes));
    }
    if !mesh.holds(&mesh_before) || !questions.holds(&questions_before) {
        return Err("job: a table does not hold what was read".into());
    }
    Ok(())
}

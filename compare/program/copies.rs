//! Copies that broke off and files stuck together: every length of each sample job, then random jobs cut anywhere or with bytes behind them.

use crate::case::Case;
use crate::doors::{self, Lent};
use crate::job::{finite, job_of};
use crate::model;
use crate::parts::{Part, Tally, Verdict};
use crate::rng::Rng;

pub const PART: Part = Part {
    name: "copies",
    doors: &["read_job"],
    make,
    compare,
    widths: &[],
    unit: "copies of accepted jobs",
    share: 3_000,
};

/// The sample jobs that the reader accepts.
const SAMPLES: [&[u8]; 10] = [
    include_bytes!("../../examples/jobs/worked.job"),
    include_bytes!("../../examples/jobs/no_question.job"),
    include_bytes!("../../examples/jobs/plate_with_boss.job"),
    include_bytes!("../../examples/jobs/coordinate_at_the_limit.job"),
    include_bytes!("../../examples/jobs/coordinate_out_of_range.job"),
    include_bytes!("../../examples/jobs/floor_out_of_range.job"),
    include_bytes!("../../examples/jobs/radius_negative.job"),
    include_bytes!("../../examples/jobs/too_many_members.job"),
    include_bytes!("../../examples/plans/plate.job"),
    include_bytes!("../../examples/jobs/largest.job"),
];

/// Bytes behind a whole job: one, a question's, a triangle's, more, and a second job's.
fn surplus(job: &[u8]) -> [usize; 6] {
    [1, 40, 72, 112, 5_000, job.len()]
}

/// Copy number i of a job: first each length below its own, then each surplus.
fn copy(job: &[u8], i: usize) -> Option<usize> {
    if i < job.len() { Some(i) } else { surplus(job).get(i - job.len()).map(|s| job.len() + s) }
}

fn make(rng: &mut Rng, case: u64, _: bool) -> Case {
    let mut i = case as usize;
    for job in SAMPLES {
        if let Some(length) = copy(job, i) {
            return Case::new("copies").bytes("job", job.to_vec()).words("length", vec![length as u32]);
        }
        i -= job.len() + surplus(job).len();
    }
    let mesh: Vec<f64> = (0..9 * (1 + rng.below(12))).map(|_| finite(rng)).collect();
    let questions: Vec<f64> = (0..5 * rng.below(8)).map(|_| finite(rng)).collect();
    let job = job_of(finite(rng), finite(rng), &mesh, &questions);
    let length = match rng.below(4) {
        0 => job.len() as u64 + 1 + rng.below(200),
        _ => rng.below(job.len() as u64),
    };
    Case::new("copies").bytes("job", job).words("length", vec![length as u32])
}

fn compare(case: &Case, tally: &mut Tally) -> Verdict {
    let (job, length) = (case.b("job"), case.u("length")[0] as usize);
    let room = (9 * 400, 5 * 300);
    let Ok((_, _, mesh, _)) = model::job(job, room.0, room.1) else {
        return Err("copies: the whole job is refused".into());
    };
    let n = mesh.len() / 9;
    // What stands behind a whole job begins as a second copy of it.
    let bytes: Vec<u8> = job.iter().cycle().take(length).copied().collect();
    let table = |k: usize| (0..k).map(|i| i as f64 - 0.25).collect::<Vec<_>>();
    let (mesh_before, questions_before) = (table(room.0), table(room.1));
    let (mut mesh, mut questions) = (Lent::new(&mesh_before), Lent::new(&questions_before));
    let ours = doors::read_job(&bytes, &mut mesh, &mut questions);
    tally.unit();
    tally.add("copies", 1);
    if !ours.intact {
        return Err("a guard word was changed".into());
    }
    let whole = (1..=n).filter(|i| 30 + 72 * i <= length).count() as u32;
    let (refusal, told) = match length {
        0..30 => (14, 0),
        _ if length < job.len() => (19, whole),
        _ => (21, 0),
    };
    tally.note(&format!("refusal {refusal}"), 1);
    if (ours.refusal, ours.sizes) != (refusal, [told, 0]) {
        return Err(format!(
            "copies: refusal {} with {:?} for {length} of {} bytes, expected {refusal} with {told} triangles",
            ours.refusal, ours.sizes, job.len()
        ));
    }
    if ours.measures.iter().any(|x| x.to_bits() != 0) || !mesh.holds(&mesh_before) || !questions.holds(&questions_before) {
        return Err(format!("copies: refusal {refusal} left something behind"));
    }
    Ok(())
}

//! Jobs written: beside document 02's rule and a plain writer, read back, and written again.

use crate::MISSING;
use crate::case::Case;
use crate::doors::{self, Lent, Word};
use crate::job::{finite, job_of};
use crate::model;
use crate::parts::{Part, Tally, Verdict};
use crate::rng::Rng;
use std::hint::black_box;
use std::sync::OnceLock;

mod raw {
    unsafe extern "C" {
        pub fn mandrikelo_write_job(
            mesh: *const f64, mesh_len: usize, floor: f64, radius: f64, questions: *const f64, questions_len: usize, bytes: *mut u8,
            bytes_len: usize, size: *mut usize,
        ) -> u32;
    }
}

pub const PART: Part = Part {
    name: "writer",
    doors: &["write_job", "read_job"],
    make,
    compare,
    widths: &[("mesh", 9), ("questions", 5), ("mesh", 1), ("questions", 1)],
    unit: "jobs written",
    share: 2_000,
};

/// The numbers that a field may hold at its edges, finite and not.
const EDGES: [u64; 10] = [
    0x8000_0000_0000_0000, 1, 0x000f_ffff_ffff_ffff, 0x800f_ffff_ffff_ffff, 0x7fef_ffff_ffff_ffff, 0xffef_ffff_ffff_ffff,
    0x7ff0_0000_0000_0000, 0xfff0_0000_0000_0000, 0x7ff0_0000_0000_0001, 0xffff_ffff_ffff_ffff,
];

/// The stored sample jobs that the reader takes.
fn samples() -> &'static [Vec<u8>] {
    static SAMPLES: OnceLock<Vec<Vec<u8>>> = OnceLock::new();
    SAMPLES.get_or_init(|| {
        let mut found = vec![];
        for folder in ["jobs", "plans"] {
            let folder = std::path::Path::new(env!("OUT")).join("../../examples").join(folder);
            for file in std::fs::read_dir(folder).expect("the sample jobs") {
                let path = file.unwrap().path();
                if path.extension().is_some_and(|e| e == "job") {
                    found.push(std::fs::read(path).unwrap());
                }
            }
        }
        found.sort();
        found.retain(|bytes| model::job(bytes, 9 * 65_536, 5 * 65_536).is_ok());
        assert!(found.len() >= 10, "only {} sample jobs", found.len());
        found
    })
}

/// The stored jobs come first, then every length of mesh and questions near its bound, every room near the job's, every edge in every
/// field; then jobs of all sizes, sound or with several faults at once.
fn make(rng: &mut Rng, case: u64, damage: bool) -> Case {
    let mut of = |n: u64| (0..n).map(|_| finite(rng)).collect::<Vec<_>>();
    let (mut mesh, mut questions, mut measures) = (of(18), of(10), of(2));
    let mut room = None;
    let mut file = vec![];
    let mut k = case as usize;
    let stored = samples();
    let (lengths, rooms, edges) = (30 * 12, 64, EDGES.len() * 30);
    if k < stored.len() {
        file = stored[k].clone();
        let (floor, radius, m, q) = model::job(&file, 9 * 65_536, 5 * 65_536).unwrap();
        (measures, mesh, questions) = (vec![floor, radius], m, q);
    } else if k - stored.len() < lengths {
        k -= stored.len();
        (mesh, questions) = (of(k as u64 / 12), of(k as u64 % 12));
    } else if k - stored.len() - lengths < rooms {
        room = Some((30 + 8 * 28 + 32 - (k - stored.len() - lengths)) as u32);
    } else if k - stored.len() - lengths - rooms < edges {
        k -= stored.len() + lengths + rooms;
        let x = f64::from_bits(EDGES[k / 30]);
        match k % 30 {
            i @ 0..2 => measures[i] = x,
            i @ 2..20 => mesh[i - 2] = x,
            i => questions[i - 20] = x,
        }
    } else {
        let (n, m) = (1 + rng.below(8), rng.below(8));
        (mesh, questions) = ((0..9 * n).map(|_| finite(rng)).collect(), (0..5 * m).map(|_| finite(rng)).collect());
        if rng.one_in(40_000) {
            let (n, m) = rng.pick(&[(65_536, 0), (65_537, 0), (1, 65_536), (1, 65_537), (65_536, 65_536), (65_537, 65_537)]);
            (mesh, questions) = (vec![-0.; 9 * n], vec![5e-324; 5 * m]);
        }
        let size = 30 + 8 * (mesh.len() + questions.len());
        room = Some(match rng.below(4) {
            0 => size,
            1 => size + rng.below(40) as usize,
            2 => size + 1,
            _ => 2 * size,
        } as u32);
        // One fault, or several, so that their order shows.
        if damage || rng.one_in(3) {
            for _ in 0..1 + rng.below(3) {
                let some = |rng: &mut Rng, n: usize| rng.below(n.max(1) as u64) as usize;
                match rng.below(6) {
                    0 => mesh.truncate(some(rng, mesh.len())),
                    1 => questions.truncate(some(rng, questions.len())),
                    2 => mesh.clear(),
                    3 => room = Some(rng.pick(&[0, 1, 29, size as u32 - 1, size as u32 / 2])),
                    4 => measures[some(rng, 2)] = f64::from_bits(rng.pick(&EDGES)),
                    _ => {
                        let table = if rng.one_in(2) { &mut mesh } else { &mut questions };
                        let at = some(rng, table.len());
                        if let Some(x) = table.get_mut(at) {
                            *x = f64::from_bits(rng.pick(&EDGES));
                        }
                    }
                }
            }
        }
    }
    let room = room.unwrap_or(30 + 8 * (mesh.len() + questions.len()) as u32 + 5);
    Case::new("writer").floats("mesh", mesh).floats("measures", measures).floats("questions", questions).words("room", vec![room]).bytes("file", file)
}

struct Written {
    refusal: u32,
    length: usize,
    intact: bool,
}

fn write(mesh: &[f64], measures: &[f64], questions: &[f64], bytes: &mut Lent<u8>) -> Written {
    let mut length = [usize::MAX; 3];
    let refusal = unsafe {
        raw::mandrikelo_write_job(
            mesh.as_ptr(), mesh.len(), measures[0], measures[1], questions.as_ptr(), questions.len(), bytes.at(), bytes.len(),
            &mut length[1],
        )
    };
    Written { refusal, length: length[1], intact: bytes.intact() && length[0] == usize::MAX && length[2] == usize::MAX }
}

/// The refusal that document 02 asks for, or the job.
fn expected(mesh: &[f64], measures: &[f64], questions: &[f64], room: usize) -> Result<Vec<u8>, u32> {
    let sizes_fit = mesh.len() % 9 == 0 && mesh.len() / 9 <= 65_536 && questions.len() % 5 == 0;
    if !sizes_fit {
        return Err(1);
    }
    if mesh.is_empty() || questions.len() / 5 > 65_536 {
        return Err(18);
    }
    if ![measures, mesh, questions].concat().iter().all(|x| x.is_finite()) {
        return Err(20);
    }
    let job = job_of(measures[0], measures[1], mesh, questions);
    if room < job.len() { Err(22) } else { Ok(job) }
}

fn compare(case: &Case, tally: &mut Tally) -> Verdict {
    let (mesh, measures, questions, file) = (case.f("mesh"), case.f("measures"), case.f("questions"), case.b("file"));
    let room = case.u("room")[0] as usize;
    let before: Vec<u8> = (0..room).map(|i| (i * 7 + 3) as u8).collect();
    let mut bytes = Lent::new(&before);
    let ours = write(mesh, measures, questions, &mut bytes);
    tally.add("jobs", 1);
    tally.unit();
    if !ours.intact {
        return Err("writer: a guard word was changed".into());
    }
    let (refusal, length, mut after) = match expected(mesh, measures, questions, room) {
        Err(refusal) => (refusal, 0, vec![]),
        Ok(job) => (0, job.len(), job),
    };
    tally.note(&format!("refusal {refusal}"), 1);
    after.extend_from_slice(&before[length..]);
    if ours.refusal != refusal || ours.length != length {
        return Err(format!("writer: refusal {}, length {} where document 02 has {refusal} and {length}", ours.refusal, ours.length));
    }
    if !bytes.holds(&after) {
        return Err("writer: the bytes are not the job and what stood behind it".into());
    }
    if refusal != 0 {
        return Ok(());
    }
    if !file.is_empty() {
        tally.note("stored files", 1);
        if file != &after[..length] {
            return Err("writer: a stored job is written to other bytes".into());
        }
    }
    back(mesh, measures, questions, &after[..length], tally)
}

/// The job read gives its numbers, and these written give its bytes.
fn back(mesh: &[f64], measures: &[f64], questions: &[f64], job: &[u8], tally: &mut Tally) -> Verdict {
    let (mut m, mut q) = (Lent::room(mesh.len(), f64::GUARD), Lent::room(questions.len(), f64::GUARD));
    let read = doors::read_job(job, &mut m, &mut q);
    if !read.intact || read.refusal != 0 || read.sizes != [mesh.len() as u32 / 9, questions.len() as u32 / 5] {
        return Err(format!("writer: read back with refusal {} and sizes {:?}", read.refusal, read.sizes));
    }
    let measures_same = read.measures.iter().zip(measures).all(|(a, b)| a.to_bits() == b.to_bits());
    if !measures_same || !m.holds(mesh) || !q.holds(questions) {
        return Err("writer: read back to other numbers".into());
    }
    let mut again = Lent::room(job.len(), u8::GUARD);
    let ours = write(m.get(), &read.measures, q.get(), &mut again);
    tally.note("read back and written again", 1);
    if !ours.intact || ours.refusal != 0 || ours.length != job.len() || !again.holds(job) {
        return Err(format!("writer: written again with refusal {} and {} bytes, of which some differ", ours.refusal, ours.length));
    }
    Ok(())
}

/// A writer of the same format as Rust would have it, with the same refusals.
#[inline(never)]
fn plain(mesh: &[f64], floor: f64, radius: f64, questions: &[f64], out: &mut [u8]) -> Result<usize, u32> {
    let (n, m) = (mesh.len() / 9, questions.len() / 5);
    if mesh.len() % 9 != 0 || n > 65_536 || questions.len() % 5 != 0 {
        return Err(1);
    }
    if n == 0 || m > 65_536 {
        return Err(18);
    }
    if !(floor.is_finite() && radius.is_finite() && mesh.iter().chain(questions).all(|x| x.is_finite())) {
        return Err(20);
    }
    let size = 30 + 8 * (mesh.len() + questions.len());
    let Some(job) = out.get_mut(..size) else {
        return Err(22);
    };
    let (head, numbers) = job.split_at_mut(30);
    head[..6].copy_from_slice(b"FTM\x01\0\0");
    head[6..10].copy_from_slice(&(n as u32).to_le_bytes());
    head[10..14].copy_from_slice(&(m as u32).to_le_bytes());
    head[14..22].copy_from_slice(&floor.to_le_bytes());
    head[22..].copy_from_slice(&radius.to_le_bytes());
    let (first, last) = numbers.split_at_mut(8 * mesh.len());
    for (table, to) in [(mesh, first), (questions, last)] {
        for (x, to) in table.iter().zip(to.chunks_exact_mut(8)) {
            to.copy_from_slice(&x.to_le_bytes());
        }
    }
    Ok(size)
}

/// Bytes a second, ours and the plain writer's in turn; `now` is the thread's clock in nanoseconds.
pub fn bench(now: fn() -> f64, wanted: fn(&str) -> bool) {
    if MISSING.contains(&"write_job") || !wanted("write a job") {
        return;
    }
    println!();
    println!("| what | ours, MB/s | plain Rust, MB/s | ours / plain |");
    println!("|---|---|---|---|");
    for (n, m, calls) in [(1, 4, 20_000), (256, 256, 400), (20_000, 1_000, 6), (65_536, 65_536, 1)] {
        let mut rng = Rng::new(2, "writer", n as u64);
        let mut of = |k: usize| (0..k).map(|_| rng.between(-1e6, 1e6)).collect::<Vec<_>>();
        let (mesh, questions) = (of(9 * n), of(5 * m));
        let mut out = vec![0u8; 30 + 72 * n + 40 * m];
        let mut rates = [vec![], vec![]];
        for round in 0..60 {
            for k in 0..2 {
                let begun = now();
                for _ in 0..calls {
                    if k == 0 {
                        let mut length = 0;
                        black_box(unsafe {
                            raw::mandrikelo_write_job(
                                mesh.as_ptr(), mesh.len(), 1., 2., questions.as_ptr(), questions.len(), out.as_mut_ptr(), out.len(),
                                &mut length,
                            )
                        });
                    } else {
                        let _ = black_box(plain(&mesh, 1., 2., &questions, black_box(&mut out)));
                    }
                }
                if round > 0 {
                    rates[k].push(calls as f64 * out.len() as f64 * 1e3 / (now() - begun));
                }
            }
        }
        let [ours, rust] = rates.map(|mut t| {
            t.sort_by(f64::total_cmp);
            t[t.len() / 2]
        });
        println!("| write a job, triangles and questions: {n} and {m} | {ours:.0} | {rust:.0} | {:.2} |", ours / rust);
    }
}

//! `mandrikelo job`: from a part to a job and back, and as text.
use crate::files::{examine, in_f64, Content, Form};
use crate::part;
use crate::plan::write;
use crate::points;
use crate::trouble::Trouble;
use crate::words::{many, thousands};
use clap::{Args, Subcommand};
use mandrikelo::{Job, Mesh, Question};
use std::path::{Path, PathBuf};

#[derive(Args)]
pub struct Asked {
    #[command(subcommand)]
    what: What,
}

#[derive(Subcommand)]
enum What {
    /// Write a job from a part, its floor and radius, and questions
    Make {
        #[command(flatten)]
        part: part::Asked,
        /// The job to write
        #[arg(value_name = "JOB.ftm")]
        job: PathBuf,
        /// A file of questions, a line each: X,Y or AX,AY,BX,BY, and behind it a radius if it is another one
        #[arg(long, value_name = "FILE")]
        questions: Option<PathBuf>,
    },
    /// Write the mesh of a job as a binary STL file
    Stl {
        #[arg(value_name = "JOB.ftm")]
        job: PathBuf,
        #[arg(value_name = "PART.stl")]
        part: PathBuf,
    },
    /// Show a job, or a part, as a text that `job write` and examples/job read
    Show {
        #[arg(value_name = "JOB.ftm | PART.stl")]
        job: PathBuf,
    },
    /// Write a job from such a text
    Write {
        #[arg(value_name = "TEXT")]
        text: PathBuf,
        #[arg(value_name = "JOB.ftm")]
        job: PathBuf,
    },
}

/// The first line of a text that is in whole micrometres.
const MICRO: &str = "micrometres";

pub const HELP: &str = "Examples:\n  mandrikelo job make examples/parts/bearing_block.stl block.ftm \\\n      --floor -8 --radius 3\n  \
mandrikelo job show block.ftm\n  mandrikelo job stl block.ftm block.stl";

pub fn run(asked: &Asked) -> Result<(String, u8), Trouble> {
    match &asked.what {
        What::Make { part, job, questions } => make(part, job, questions.as_deref()),
        What::Stl { job, part } => stl(job, part),
        What::Show { job } => show(job),
        What::Write { text, job } => from_text(text, job),
    }
}

fn made(path: &Path, job: &Job) -> Result<(String, u8), Trouble> {
    let bytes = job.write().map_err(|refusal| Trouble::planner("job", refusal))?;
    write(path, &bytes)?;
    let (n, m) = (many(job.mesh.len() as u64, "triangle"), many(job.questions.len() as u64, "question"));
    Ok((format!("{}: {n}, {m}, {} bytes\n", path.display(), thousands(bytes.len() as u64)), 0))
}

fn make(asked: &part::Asked, path: &Path, questions: Option<&Path>) -> Result<(String, u8), Trouble> {
    let mut part = part::open(asked)?;
    if part.raise != 0.0 {
        part.asked(|_| ())?;
    }
    let radius = part.radius;
    let question = move |line: &str| match points::numbers(line)?[..] {
        [x, y] => Ok(Question { p: [x, y], q: [x, y], r: radius }),
        [x, y, r] => Ok(Question { p: [x, y], q: [x, y], r }),
        [a, b, c, d] => Ok(Question { p: [a, b], q: [c, d], r: radius }),
        [a, b, c, d, r] => Ok(Question { p: [a, b], q: [c, d], r }),
        _ => Err("two to five numbers are wanted".to_string()),
    };
    let mut all = part.questions;
    if let Some(file) = questions {
        all.extend(points::lines(file, question)?);
    }
    made(path, &Job { mesh: part.mesh, floor: part.floor, radius, questions: all })
}

fn whole(path: &Path) -> Result<(Form, Content), Trouble> {
    let (seen, content) = examine(path);
    match (seen.form, content) {
        (_, Content::Nothing) | (None, _) => Err(Trouble::refused(format!("{}: {}", path.display(), seen.verdict.words()), seen.verdict.advice())),
        (Some(form), content) => Ok((form, content)),
    }
}

fn stl(job: &Path, path: &Path) -> Result<(String, u8), Trouble> {
    let mesh = match whole(job)?.1 {
        Content::Job(job) => job.mesh,
        Content::Mesh(mesh) => mesh,
        _ => {
            let what = format!("{}: a job in whole micrometres is not made a part", job.display());
            return Err(Trouble::refused(what, "take the STL file that the job was made from"));
        }
    };
    let (bytes, moved, far) = stl_bytes(&mesh);
    if far > 0 {
        return Err(Trouble::refused(format!("{}: too large for a single-precision number", many(far, "coordinate")), "an STL file can't hold this part"));
    }
    write(path, &bytes)?;
    let rounded = if moved == 0 { "every coordinate as it was".into() } else { format!("{} rounded to single precision", many(moved, "coordinate")) };
    Ok((format!("{}: {}, {} bytes, {rounded}\n", path.display(), many(mesh.len() as u64, "triangle"), thousands(bytes.len() as u64)), 0))
}

/// The bytes of a binary STL file, how many coordinates were rounded, and how many have no single-precision number.
fn stl_bytes(mesh: &Mesh) -> (Vec<u8>, u64, u64) {
    let mut out = vec![b' '; 80];
    let heading = b"written by mandrikelo";
    out[..heading.len()].copy_from_slice(heading);
    out.extend((mesh.len() as u32).to_le_bytes());
    let (mut moved, mut far) = (0, 0);
    for triangle in mesh.triangles() {
        let single = triangle.map(|x| x as f32);
        moved += single.iter().zip(triangle).filter(|(single, x)| f64::from(**single) != **x).count() as u64;
        far += single.iter().filter(|x| !x.is_finite()).count() as u64;
        let numbers = crate::svg::normal(triangle).map(|x| x as f32).into_iter().chain(single);
        numbers.for_each(|x| out.extend(x.to_le_bytes()));
        out.extend([0, 0]);
    }
    (out, moved, far)
}

fn row(name: &str, numbers: &[f64]) -> String {
    let words: Vec<String> = numbers.iter().map(|x| x.to_string()).collect();
    format!("{name} {}\n", words.join(" "))
}

fn show(path: &Path) -> Result<(String, u8), Trouble> {
    let (form, content) = whole(path)?;
    let (mesh, mut out, questions) = match content {
        Content::Job(job) => (job.mesh, row("floor", &[job.floor]) + &row("radius", &[job.radius]), job.questions),
        Content::Mesh(mesh) => (mesh, String::new(), Vec::new()),
        Content::Um(job) => {
            let head = format!("{MICRO}\n") + &row("floor", &[f64::from(job.floor)]) + &row("radius", &[f64::from(job.radius)]);
            let questions = job.questions.iter().map(|q| Question { p: q.p.map(f64::from), q: q.q.map(f64::from), r: f64::from(q.r) });
            (in_f64(&job.mesh), head, questions.collect())
        }
        Content::Nothing => (Mesh::default(), String::new(), Vec::new()),
    };
    let (n, m) = (many(mesh.len() as u64, "triangle"), many(questions.len() as u64, "question"));
    out = format!("# {}: {}, {n}, {m}\n", crate::words::one_line(path), form.name()) + &out;
    mesh.triangles().for_each(|triangle| out += &row("triangle", triangle));
    questions.iter().for_each(|q| out += &row("question", &[q.p[0], q.p[1], q.q[0], q.q[1], q.r]));
    Ok((out, 0))
}

fn from_text(text: &Path, path: &Path) -> Result<(String, u8), Trouble> {
    let lines = points::lines(text, |line| {
        let (name, rest) = line.split_once(char::is_whitespace).unwrap_or((line, ""));
        let numbers = points::numbers(rest)?;
        let wanted = match name {
            "floor" | "radius" => 1,
            "triangle" => 9,
            "question" => 5,
            MICRO => return Err("a job in whole micrometres is shown, but not written".into()),
            _ => return Err(format!("{name} is neither floor, radius, triangle nor question")),
        };
        if numbers.len() != wanted {
            return Err(format!("a {name} has {wanted} numbers, not {}", numbers.len()));
        }
        Ok((name.to_string(), numbers))
    })?;
    let (mut floor, mut radius, mut mesh, mut questions) = (0.0, 0.0, Vec::new(), Vec::new());
    for (name, numbers) in lines {
        match &name[..] {
            "floor" => floor = numbers[0],
            "radius" => radius = numbers[0],
            "triangle" => mesh.extend(numbers),
            _ => questions.push(Question { p: [numbers[0], numbers[1]], q: [numbers[2], numbers[3]], r: numbers[4] }),
        }
    }
    made(path, &Job { mesh: Mesh::from_numbers(mesh), floor, radius, questions })
}

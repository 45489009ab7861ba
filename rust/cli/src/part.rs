//! A part as the questions and the plan want it: counted, in millimetres, with its floor and its radius.
use crate::files::{examine, Content, Form, Seen, Verdict};
use crate::trouble::Trouble;
use crate::words::rounded;
use clap::Args;
use mandrikelo::{Index, Mesh, Question};
use std::path::PathBuf;

#[derive(Args)]
pub struct Asked {
    /// The part: an .stl file, binary or ASCII, or an .ftm job
    #[arg(value_name = "PART")]
    pub part: PathBuf,
    /// Height of the floor, under which nothing is asked (of a job: the job's own if this is left out)
    #[arg(long, value_name = "Z", allow_hyphen_values = true)]
    pub floor: Option<f64>,
    /// Radius of the tool (of a job: the job's own if this is left out)
    #[arg(long, value_name = "R", allow_hyphen_values = true)]
    pub radius: Option<f64>,
    /// Multiply every coordinate: 1 as it stands, 25.4 for inches, 1000 for metres
    #[arg(long, value_name = "FACTOR", allow_hyphen_values = true)]
    pub scale: Option<f64>,
    /// The part stands on parallels: add H to every z, after the scale; the floor stays where it is
    #[arg(long, value_name = "H", default_value = "0", allow_hyphen_values = true)]
    pub raise: f64,
}

/// A part that was read and is whole.
pub struct Part {
    pub seen: Seen,
    /// As it stands in the file, scaled; raised as well once it was asked.
    pub mesh: Mesh,
    pub raise: f64,
    pub floor: f64,
    pub radius: f64,
    pub scale: f64,
    pub questions: Vec<Question>,
}

pub fn open(asked: &Asked) -> Result<Part, Trouble> {
    let (seen, content) = examine(&asked.part);
    let shown = asked.part.display();
    let (mesh, floor, radius, questions) = match content {
        Content::Mesh(mesh) => (mesh, None, None, Vec::new()),
        Content::Job(job) => (job.mesh, Some(job.floor), Some(job.radius), job.questions),
        Content::Um(_) => {
            let what = format!("{shown}: a job in whole micrometres is neither planned nor asked in this way");
            return Err(Trouble::refused(what, "ask for its set-up heights with: mandrikelo setup"));
        }
        Content::Nothing => {
            let what = format!("{shown}: {}", seen.verdict.words());
            return Err(if matches!(seen.verdict, Verdict::Unreadable(_)) {
                Trouble::use_of(what, seen.verdict.advice())
            } else {
                Trouble::refused(format!("{what}: it is not planned and not asked"), seen.verdict.advice())
            });
        }
    };
    let scale = scale(asked, seen.form == Some(Form::Job), &mesh)?;
    let mesh = if scale == 1.0 { mesh } else { Mesh::from_numbers(mesh.numbers().iter().map(|x| x * scale).collect()) };
    let missing = |name: &str, next: &str| Trouble::use_of(format!("{shown} is no job, so --{name} is needed"), next);
    Ok(Part {
        floor: asked.floor.or(floor).ok_or_else(|| missing("floor", "say --floor Z, the height under which nothing is asked"))?,
        radius: asked.radius.or(radius).ok_or_else(|| missing("radius", "say --radius R, that of the tool"))?,
        seen,
        mesh,
        scale,
        raise: asked.raise,
        questions,
    })
}

/// The factor, if it is one, and if none is needed for a part of this size.
fn scale(asked: &Asked, job: bool, mesh: &Mesh) -> Result<f64, Trouble> {
    let shown = asked.part.display();
    match asked.scale {
        None => match unit(mesh).filter(|_| !job) {
            None => Ok(1.0),
            Some(what) => Err(Trouble::use_of(
                format!("{shown}: {what}"),
                "say --scale 1 if it is in millimetres, --scale 25.4 if in inches, --scale 1000 if in metres",
            )),
        },
        Some(scale) if !(scale > 0.0 && scale.is_finite()) => {
            Err(Trouble::use_of(format!("--scale {scale} is no factor"), "say 1, 25.4, 1000 or another number over 0"))
        }
        Some(scale) if job && scale != 1.0 => {
            let what = format!("{shown} is a job: its floor, radius and questions are in its own unit");
            Err(Trouble::use_of(what, "leave --scale out, or make the job anew from the part"))
        }
        Some(scale) => Ok(scale),
    }
}

/// What is said of a part whose size looks like metres or inches.
fn unit(mesh: &Mesh) -> Option<String> {
    let (low, high) = mesh.extent()?;
    let size: Vec<f64> = (0..3).map(|k| high[k] - low[k]).collect();
    let most = size.iter().copied().fold(0.0, f64::max);
    let unit = match most {
        most if most < 1.0 => "metres",
        most if most < 10.0 => "inches",
        _ => return None,
    };
    let size: Vec<String> = size.iter().map(|x| rounded(*x, 4)).collect();
    Some(format!("it measures {}: that looks like {unit}", size.join(" by ")))
}

impl Part {
    pub fn name(&self) -> String {
        self.seen.path.file_name().map_or("?".into(), |name| crate::words::one_line(name.as_ref()))
    }

    /// Asks the part's index; the part that stands on parallels is raised with its index, and stays so.
    pub fn asked<T>(&mut self, ask: impl FnOnce(&Index) -> T) -> Result<T, Trouble> {
        let refused = |refusal| Trouble::planner(&self.name(), refusal);
        let index = Index::build(&self.mesh, self.floor, self.radius).map_err(refused)?;
        if self.raise == 0.0 {
            return Ok(ask(&index));
        }
        let mut raised = Mesh::default();
        let refused = |refusal| Trouble::planner(&format!("{}, raised by {}", self.name(), self.raise), refusal);
        let answer = ask(&index.raised(self.raise, &mut raised).map_err(refused)?);
        self.mesh = raised;
        Ok(answer)
    }

    pub fn extent(&self) -> ([f64; 3], [f64; 3]) {
        self.mesh.extent().unwrap_or_default()
    }
}

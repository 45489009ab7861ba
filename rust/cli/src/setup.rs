//! `mandrikelo setup`: set-up heights over a job in whole micrometres, version 2 of the job file.
use crate::ask::{gathered, refused, told};
use crate::files::{examine, Content};
use crate::points;
use crate::trouble::Trouble;
use crate::words::many;
use clap::Args;
use mandrikelo::um::Index;
use serde_json::json;
use std::path::PathBuf;

#[derive(Args)]
pub struct Asked {
    /// The job, version 2 of the .ftm file
    #[arg(value_name = "JOB.ftm")]
    job: PathBuf,
    /// Radius in micrometres, a whole number [default: of the job's own questions theirs, else the job's]
    #[arg(long, value_name = "R", allow_hyphen_values = true)]
    radius: Option<i32>,
    /// A point, or the two ends of a way, in whole micrometres; may be given often. Without any, the job's own questions are asked
    #[arg(long, value_name = "X,Y | AX,AY,BX,BY", value_parser = whole, allow_hyphen_values = true)]
    at: Vec<[i32; 4]>,
    /// A file of points or ways, a line each; - for standard input
    #[arg(long, value_name = "FILE")]
    points: Option<PathBuf>,
    /// Print the answers as JSON
    #[arg(long)]
    json: bool,
}

fn whole(text: &str) -> Result<[i32; 4], String> {
    let numbers = points::sweep(text)?;
    match numbers.iter().find(|x| x.fract() != 0.0 || x.abs() > f64::from(i32::MAX)) {
        Some(x) => Err(format!("{x} is not a whole number of micrometres")),
        None => Ok(numbers.map(|x| x as i32)),
    }
}

pub fn run(asked: &Asked) -> Result<(String, u8), Trouble> {
    let (seen, content) = examine(&asked.job);
    let shown = asked.job.display();
    let job = match content {
        Content::Um(job) => job,
        Content::Nothing => return Err(Trouble::refused(format!("{shown}: {}", seen.verdict.words()), seen.verdict.advice())),
        _ => {
            let what = format!("{shown} is no job in whole micrometres");
            return Err(Trouble::use_of(what, "ask for heights over this part with: mandrikelo height"));
        }
    };
    let mut ways: Vec<([i32; 4], i32)> = Vec::new();
    ways.extend(gathered(&asked.at, asked.points.as_ref(), whole)?.into_iter().map(|way| (way, asked.radius.unwrap_or(job.radius))));
    if asked.at.is_empty() && asked.points.is_none() {
        ways.extend(job.questions.iter().map(|q| ([q.p[0], q.p[1], q.q[0], q.q[1]], asked.radius.unwrap_or(q.r))));
    }
    let index = Index::build(&job.mesh, job.floor, job.radius).map_err(|refusal| Trouble::planner(&shown.to_string(), refusal))?;
    let mut marks = index.marks();
    let answers = ways.iter().map(|([ax, ay, bx, by], r)| {
        let place = if (ax, ay) == (bx, by) { format!("{ax}, {ay}") } else { format!("{ax}, {ay} to {bx}, {by}") };
        match index.setup_height(&mut marks, [*ax, *ay], [*bx, *by], *r) {
            Ok(found) => {
                let (looked, meet) = (many(found.count.into(), "triangle"), many(found.meeting.into(), "box").replace("boxs", "boxes"));
                let line = format!("{place}: {} micrometres; {looked} looked at, {meet} in reach", found.height);
                (line, json!({ "at": [ax, ay, bx, by], "height": found.height, "count": found.count, "meeting": found.meeting }), false)
            }
            Err(refusal) => refused(place, &[*ax, *ay, *bx, *by].map(f64::from), refusal),
        }
    });
    told(answers.collect(), asked.json)
}

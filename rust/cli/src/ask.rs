//! `mandrikelo height|bull|sections|chord`: a question each point, answered with its bits.
use crate::part::{self, Part};
use crate::points;
use crate::toolsheet;
use crate::trouble::Trouble;
use crate::words::{many, thousands};
use clap::Args;
use mandrikelo::{Answer, Refusal, Tool, Verdict};
use serde_json::{json, Value};
use std::path::PathBuf;

#[derive(Args)]
pub struct Height {
    #[command(flatten)]
    part: part::Asked,
    /// A point, or the two ends of a sweep; may be given often. Of a job without any, its own questions are asked
    #[arg(long, value_name = "X,Y | AX,AY,BX,BY", value_parser = points::sweep, allow_hyphen_values = true)]
    at: Vec<[f64; 4]>,
    /// A file of points or sweeps, a line each; - for standard input
    #[arg(long, value_name = "FILE")]
    points: Option<PathBuf>,
    /// Print the answers as JSON
    #[arg(long)]
    json: bool,
}

#[derive(Args)]
pub struct Bull {
    #[command(flatten)]
    part: part::Asked,
    /// Corner radius, 0 to the radius
    #[arg(long, value_name = "RC", allow_hyphen_values = true)]
    corner: f64,
    /// A point; may be given often
    #[arg(long, value_name = "X,Y", value_parser = points::two, allow_hyphen_values = true)]
    at: Vec<[f64; 2]>,
    /// A file of points, a line each; - for standard input
    #[arg(long, value_name = "FILE")]
    points: Option<PathBuf>,
    /// Print the answers as JSON
    #[arg(long)]
    json: bool,
}

#[derive(Args)]
pub struct Sections {
    #[command(flatten)]
    part: part::Asked,
    /// The tool's sheet (mandrikelo tool --help says what stands in it)
    #[arg(long, value_name = "SHEET")]
    tool: PathBuf,
    /// A point; may be given often
    #[arg(long, value_name = "X,Y", value_parser = points::two, allow_hyphen_values = true)]
    at: Vec<[f64; 2]>,
    /// A file of points, a line each; - for standard input
    #[arg(long, value_name = "FILE")]
    points: Option<PathBuf>,
    /// Print the answers as JSON
    #[arg(long)]
    json: bool,
}

#[derive(Args)]
pub struct Chord {
    #[command(flatten)]
    part: part::Asked,
    /// The tool's sheet; without it a bull-nose of --radius and --corner is asked
    #[arg(long, value_name = "SHEET", conflicts_with = "corner")]
    tool: Option<PathBuf>,
    /// Corner radius of a bull-nose, 0 to the radius
    #[arg(long, value_name = "RC", allow_hyphen_values = true)]
    corner: Option<f64>,
    /// By how much the part is raised against the tool
    #[arg(long, value_name = "H", default_value = "0", allow_hyphen_values = true)]
    lift: f64,
    /// Where the tip starts
    #[arg(long, value_name = "X,Y,Z", value_parser = points::three, allow_hyphen_values = true, requires = "to")]
    from: Option<[f64; 3]>,
    /// Where it ends
    #[arg(long, value_name = "X,Y,Z", value_parser = points::three, allow_hyphen_values = true, requires = "from")]
    to: Option<[f64; 3]>,
    /// A file of chords, a line each with the six numbers of both ends; - for standard input
    #[arg(long, value_name = "FILE")]
    points: Option<PathBuf>,
    /// Print the answers as JSON
    #[arg(long)]
    json: bool,
}

/// An answer as a line and as JSON, and whether it was refused.
pub type Told = (String, Value, bool);

pub fn height(asked: &Height) -> Result<(String, u8), Trouble> {
    let mut part = part::open(&asked.part)?;
    let mut sweeps = gathered(&asked.at, asked.points.as_ref(), points::sweep)?;
    let mut radii = vec![part.radius; sweeps.len()];
    if asked.at.is_empty() && asked.points.is_none() {
        sweeps.extend(part.questions.iter().map(|q| [q.p[0], q.p[1], q.q[0], q.q[1]]));
        radii.extend(part.questions.iter().map(|q| asked.part.radius.unwrap_or(q.r)));
    }
    let answers = part.asked(|index| {
        let mut marks = index.marks();
        let answer = |(s, r): (&[f64; 4], f64)| {
            let place = if s[..2] == s[2..] { format!("{}, {}", s[0], s[1]) } else { format!("{}, {} to {}, {}", s[0], s[1], s[2], s[3]) };
            height_told(place, s, index.max_height(&mut marks, [s[0], s[1]], [s[2], s[3]], r))
        };
        sweeps.iter().zip(radii).map(answer).collect()
    })?;
    told(answers, asked.json)
}

pub fn bull(asked: &Bull) -> Result<(String, u8), Trouble> {
    let mut part = part::open(&asked.part)?;
    let points = gathered(&asked.at, asked.points.as_ref(), points::two)?;
    let answers = part.asked(|index| {
        let mut marks = index.marks();
        let answer = |p: &[f64; 2]| height_told(format!("{}, {}", p[0], p[1]), p, index.max_bull(&mut marks, *p, index.radius(), asked.corner));
        points.iter().map(answer).collect()
    })?;
    told(answers, asked.json)
}

pub fn sections(asked: &Sections) -> Result<(String, u8), Trouble> {
    let tool = toolsheet::read(&asked.tool)?;
    let mut part = open_for(&asked.part, &tool)?;
    let points = gathered(&asked.at, asked.points.as_ref(), points::two)?;
    let answers = part.asked(|index| {
        let mut marks = index.marks();
        let answer = |p: &[f64; 2]| height_told(format!("{}, {}", p[0], p[1]), p, index.max_sections(&mut marks, *p, &tool));
        points.iter().map(answer).collect()
    })?;
    told(answers, asked.json)
}

pub fn chord(asked: &Chord) -> Result<(String, u8), Trouble> {
    let tool = asked.tool.as_deref().map(toolsheet::read).transpose()?;
    let mut part = match (&tool, asked.corner) {
        (Some(tool), _) => open_for(&asked.part, tool)?,
        (None, Some(_)) => part::open(&asked.part)?,
        (None, None) => return Err(Trouble::use_of("no tool is named", "say --tool SHEET, or of a bull-nose --radius R and --corner RC")),
    };
    let six = |text: &str| points::numbers(text).and_then(|x| x.try_into().map_err(|_| "six numbers are wanted".to_string()));
    let given: Vec<[f64; 6]> = asked.from.iter().zip(&asked.to).map(|(a, b)| [a[0], a[1], a[2], b[0], b[1], b[2]]).collect();
    let chords = gathered(&given, asked.points.as_ref(), six)?;
    let answers = part.asked(|index| {
        let mut marks = index.marks();
        let answer = |c: &[f64; 6]| {
            let (a, b) = ([c[0], c[1], c[2]], [c[3], c[4], c[5]]);
            chord_told(c, match &tool {
                Some(tool) => index.sections_chord_clear(&mut marks, a, b, tool, asked.lift),
                None => index.bull_chord_clear(&mut marks, a, b, index.radius(), asked.corner.unwrap_or(0.0), asked.lift),
            })
        };
        chords.iter().map(answer).collect()
    })?;
    told(answers, asked.json)
}

fn chord_told(c: &[f64; 6], answer: Result<mandrikelo::Chord, Refusal>) -> Told {
    let place = format!("{}, {}, {} to {}, {}, {}", c[0], c[1], c[2], c[3], c[4], c[5]);
    match answer {
        Ok(chord) => {
            let word = if chord.verdict == Verdict::Clear { "clear" } else { "blocked" };
            let early = chord.verdict == Verdict::Blocked && chord.count == 0;
            let why = if early { ", an end lies under the floor" } else { "" };
            let line = format!("{place}: {word}{why}; {} looked at", many(chord.count.into(), "triangle"));
            (line, json!({ "chord": c, "verdict": word, "count": chord.count }), false)
        }
        Err(refusal) => refused(place, c, refusal),
    }
}

/// A part for a tool of sections: its index is made for the tool's largest radius if none is given.
fn open_for(asked: &part::Asked, tool: &Tool) -> Result<Part, Trouble> {
    let most = tool.sections().iter().map(|section| section.r1).fold(0.0, f64::max);
    part::open(&part::Asked { part: asked.part.clone(), floor: asked.floor, radius: asked.radius.or(Some(most)), scale: asked.scale, raise: asked.raise })
}

pub fn gathered<T: Copy>(given: &[T], file: Option<&PathBuf>, read: impl Fn(&str) -> Result<T, String>) -> Result<Vec<T>, Trouble> {
    let mut out = given.to_vec();
    if let Some(path) = file {
        out.extend(points::lines(path, read)?);
    }
    Ok(out)
}

fn height_told(place: String, numbers: &[f64], answer: Result<Answer, Refusal>) -> Told {
    match answer {
        Ok(answer) => {
            let bits = format!("{:016x}", answer.height.to_bits());
            let line = format!("{place}: {} (bits {bits}); {} looked at", answer.height, many(answer.count.into(), "triangle"));
            let value = json!({ "at": numbers, "height": answer.height, "bits": bits, "count": answer.count });
            let (line, value) = touched(line, value, answer.touched);
            (line, value, false)
        }
        Err(refusal) => refused(place, numbers, refusal),
    }
}

/// An answer with what the cutter touches.
fn touched(line: String, mut value: Value, touch: mandrikelo::Touch) -> (String, Value) {
    use mandrikelo::Touch;
    value["touched"] = match touch {
        Touch::Floor => json!("floor"),
        Touch::Corner { triangle, which } => json!({ "triangle": triangle, "corner": which }),
        Touch::Edge { triangle, which } => json!({ "triangle": triangle, "edge": which }),
        Touch::Face { triangle } => json!({ "triangle": triangle, "face": true }),
    };
    (format!("{line}; touches {touch}"), value)
}

pub fn refused(place: String, numbers: &[f64], refusal: Refusal) -> Told {
    (format!("{place}: {refusal}"), json!({ "at": numbers, "refusal": refusal.number(), "words": refusal.text() }), true)
}

pub fn told(answers: Vec<Told>, json: bool) -> Result<(String, u8), Trouble> {
    if answers.is_empty() {
        return Err(Trouble::use_of("nothing is asked", "name points on the command line, or a file of them with --points"));
    }
    let bad = answers.iter().filter(|(_, _, refused)| *refused).count();
    if bad > 0 {
        eprintln!("mandrikelo: {} of {} refused", thousands(bad as u64), many(answers.len() as u64, "question"));
    }
    let out = if json {
        format!("{:#}\n", Value::Array(answers.into_iter().map(|(_, value, _)| value).collect()))
    } else {
        answers.into_iter().map(|(line, _, _)| line + "\n").collect()
    };
    Ok((out, u8::from(bad > 0)))
}

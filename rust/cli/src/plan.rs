//! `mandrikelo plan`: a part's flat runs, and the moves for them.
use crate::planned::{self, Planned};
use crate::svg;
use crate::trouble::Trouble;
use crate::words::{many, rounded};
use clap::Args;
use mandrikelo::{Heights, Kind, Move};
use std::path::{Path, PathBuf};

#[derive(Args)]
pub struct Asked {
    #[command(flatten)]
    plan: planned::Asked,
    /// Draw the plan as an SVG picture
    #[arg(long, value_name = "FILE")]
    svg: Option<PathBuf>,
    /// Write the plan as JSON, to standard output (in place of the summary) if FILE is -
    #[arg(long, value_name = "FILE")]
    json: Option<PathBuf>,
    /// Write NAME.levels.csv and NAME.runs.csv
    #[arg(long, value_name = "NAME")]
    csv: Option<PathBuf>,
    /// Write the moves for the runs: as a table if FILE ends in .csv, as a path file for look-over if in .ftp; may be given twice
    #[arg(long, value_name = "FILE", requires_all = ["clearance", "retract", "feed", "start"])]
    moves: Vec<PathBuf>,
    /// Height at which the tool travels before the first and after the last run
    #[arg(long, value_name = "Z", allow_hyphen_values = true)]
    clearance: Option<f64>,
    /// Height at which it travels from run to run
    #[arg(long, value_name = "Z", allow_hyphen_values = true)]
    retract: Option<f64>,
    /// Height from which it plunges
    #[arg(long, value_name = "Z", allow_hyphen_values = true)]
    feed: Option<f64>,
    /// Where the tool stands before the first move
    #[arg(long, value_name = "X,Y,Z", value_parser = crate::points::three, allow_hyphen_values = true)]
    start: Option<[f64; 3]>,
}

pub fn run(asked: &Asked) -> Result<(String, u8), Trouble> {
    let wrong = asked.moves.iter().find(|path| form(path).is_none());
    if let Some(path) = wrong {
        return Err(Trouble::use_of(format!("--moves {}: neither .csv nor .ftp", path.display()), "let the name end in .csv or .ftp"));
    }
    let planned = planned::plan(&asked.plan)?;
    let moves = moves(asked, &planned)?;
    if let Some(path) = &asked.svg {
        let title = format!("Flat runs of {}", planned.part.name());
        write(path, svg::draw(&planned, moves.as_deref(), &title).as_bytes())?;
    }
    if let Some(path) = &asked.csv {
        let (levels, runs) = planned.csv();
        write(&beside(path, ".levels.csv"), levels.as_bytes())?;
        write(&beside(path, ".runs.csv"), runs.as_bytes())?;
    }
    for path in &asked.moves {
        let (moves, start) = (moves.as_deref().unwrap_or(&[]), asked.start.unwrap_or_default());
        let bytes = if form(path) == Some("csv") { table(moves).into_bytes() } else { path_file(moves, start)? };
        write(path, &bytes)?;
    }
    let mut summary = planned.summary();
    if let Some(moves) = &moves {
        let across: f64 = moves.iter().filter(|step| step.kind == Kind::Rapid).map(length).sum();
        let cuts = moves.iter().filter(|step| step.kind == Kind::Cut).count();
        summary += &format!("{}, {cuts} of them cuts; the rapids together are {} long\n", many(moves.len() as u64, "move"), rounded(across, 3));
    }
    match &asked.json {
        Some(path) if path.as_os_str() == "-" => summary = format!("{:#}\n", planned.json()),
        Some(path) => write(path, format!("{:#}\n", planned.json()).as_bytes())?,
        None => {}
    }
    Ok((summary, 0))
}

fn form(path: &Path) -> Option<&'static str> {
    let end = path.extension()?;
    ["csv", "ftp"].into_iter().find(|name| end.eq_ignore_ascii_case(name))
}

fn beside(path: &Path, end: &str) -> PathBuf {
    let mut name = path.as_os_str().to_owned();
    name.push(end);
    name.into()
}

pub fn write(path: &Path, bytes: &[u8]) -> Result<(), Trouble> {
    std::fs::write(path, bytes).map_err(|error| Trouble::written(path, &error))
}

fn length(step: &Move) -> f64 {
    (0..3).map(|k| (step.to[k] - step.from[k]).powi(2)).sum::<f64>().sqrt()
}

fn moves(asked: &Asked, planned: &Planned) -> Result<Option<Vec<Move>>, Trouble> {
    let (Some(clearance), Some(retract), Some(feed), Some(start)) = (asked.clearance, asked.retract, asked.feed, asked.start) else {
        return Ok(None);
    };
    let refused = |refusal| Trouble::planner("moves", refusal);
    let moves = planned.plan.moves(Heights { clearance, retract, feed }, start, 1).map_err(refused)?;
    moves.collect::<Result<_, _>>().map(Some).map_err(refused)
}

fn kind(kind: Kind) -> &'static str {
    match kind {
        Kind::Rapid => "rapid",
        Kind::Plunge => "plunge",
        Kind::Cut => "cut",
        Kind::Retract => "retract",
    }
}

fn table(moves: &[Move]) -> String {
    let mut out = String::from("id,kind,from_x,from_y,from_z,to_x,to_y,to_z\n");
    for step in moves {
        let [a, b] = [step.from, step.to].map(|p| format!("{},{},{}", p[0], p[1], p[2]));
        out += &format!("{},{},{a},{b}\n", step.id, kind(step.kind));
    }
    out
}

/// The moves as a path file: the cuts as cuts, all others as rapids, since a cut keeps its z.
fn path_file(moves: &[Move], start: [f64; 3]) -> Result<Vec<u8>, Trouble> {
    if moves.len() > 65_536 {
        let what = format!("a path file holds 65,536 moves, and these are {}", many(moves.len() as u64, "move"));
        return Err(Trouble::refused(what, "take a larger stepover, or plan the part in pieces"));
    }
    let mut out = b"FTP\x01\0\0".to_vec();
    out.extend((moves.len() as u32).to_le_bytes());
    let put = |out: &mut Vec<u8>, point: [f64; 3]| point.iter().for_each(|x| out.extend(x.to_le_bytes()));
    put(&mut out, start);
    for step in moves {
        out.push(u8::from(step.kind == Kind::Cut));
        put(&mut out, step.to);
    }
    Ok(out)
}

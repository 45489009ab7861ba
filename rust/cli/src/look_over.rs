//! `mandrikelo look-over`: another planner's moves held to the part.
use crate::part;
use crate::toolsheet;
use crate::trouble::Trouble;
use crate::words::{many, thousands};
use clap::Args;
use mandrikelo::{Finding, Refusal};
use serde_json::json;
use std::path::PathBuf;

#[derive(Args)]
pub struct Asked {
    /// The path file
    #[arg(value_name = "PATH.ftp")]
    path: PathBuf,
    #[command(flatten)]
    part: part::Asked,
    /// The tool's sheet: rapids are held to its sections (mandrikelo tool --help says what stands in it)
    #[arg(long, value_name = "SHEET")]
    tool: PathBuf,
    /// By how much a cut may go under the part, 1e-7 to 0.01
    #[arg(long, value_name = "T", default_value = "0.001", allow_hyphen_values = true)]
    tolerance: f64,
    /// Print the finding as JSON
    #[arg(long)]
    json: bool,
}

pub fn run(asked: &Asked) -> Result<(String, u8), Trouble> {
    let bytes = std::fs::read(&asked.path).map_err(|error| Trouble::file(&asked.path, &error))?;
    let tool = toolsheet::read(&asked.tool)?;
    let mut part = part::open(&asked.part)?;
    let name = asked.path.display().to_string();
    let finding = part.asked(|index| index.look_over(&bytes, &tool, asked.tolerance))?;
    let finding = finding.map_err(|refusal| refused(&name, &bytes, refusal))?;
    let moves = count(&bytes);
    let (words, status, value) = match finding {
        Finding::Passes => (format!("passes: all of its {} do", many(moves, "move")), 0, json!({ "passes": true, "moves": moves })),
        Finding::Fails { step, reason } => {
            let ends = ends(&bytes, step);
            let what = format!("does not pass: move {} of {} (counted from 0) is a {}, {ends}", thousands(step.into()), thousands(moves), reason.words());
            (what, 1, json!({ "passes": false, "moves": moves, "move": step, "reason": reason.words() }))
        }
    };
    let out = if asked.json { format!("{value:#}\n") } else { format!("{name}: {words}\n") };
    Ok((out, status))
}

fn count(bytes: &[u8]) -> u64 {
    bytes.get(6..10).map_or(0, |count| u32::from_le_bytes(count.try_into().expect("four bytes")).into())
}

fn point(bytes: &[u8], at: usize) -> String {
    let number = |k: usize| bytes.get(at + 8 * k..at + 8 * k + 8).map_or(f64::NAN, |x| f64::from_le_bytes(x.try_into().expect("eight bytes")));
    format!("({}, {}, {})", number(0), number(1), number(2))
}

/// Where a move begins and ends.
fn ends(bytes: &[u8], step: u32) -> String {
    let end = |k: usize| 34 + 25 * k + 1;
    let from = if step == 0 { 10 } else { end(step as usize - 1) };
    format!("from {} to {}", point(bytes, from), point(bytes, end(step as usize)))
}

fn refused(name: &str, bytes: &[u8], refusal: Refusal) -> Trouble {
    match refusal {
        Refusal::Cut { .. } => {
            let whole = bytes.len().saturating_sub(34) / 25;
            Trouble::refused(format!("{name}: cut, {} of {}", thousands(whole as u64), many(count(bytes), "move")), "copy the file again")
        }
        _ => Trouble::planner(name, refusal),
    }
}

//! `mandrikelo count`: every part file under some folders, read to its end.
use crate::closed::edges_without_partner;
use crate::files::{examine, in_f64, unreadable, Content, Seen, Verdict};
use crate::manifest::{self, Line};
use crate::trouble::Trouble;
use crate::words::{many, one_line, thousands};
use clap::Args;
use indicatif::{ProgressBar, ProgressStyle};
use rayon::prelude::*;
use serde_json::{json, Value};
use std::collections::BTreeMap;
use std::path::{Path, PathBuf};
use walkdir::WalkDir;

#[derive(Args)]
pub struct Asked {
    /// Folders, walked with all that is below them, or files
    #[arg(required = true, value_name = "PATH")]
    paths: Vec<PathBuf>,
    /// Tell the edges without a partner as well: a lost triangle shows there even if the count was mended. Real parts often have some,
    /// so they change no verdict
    #[arg(long)]
    closed: bool,
    /// Write the list to FILE, to hold another site's copy to it
    #[arg(long, value_name = "FILE")]
    manifest: Option<PathBuf>,
    /// Hold these files to the list in FILE: missing, changed, cut, extra
    #[arg(long, value_name = "FILE", conflicts_with = "manifest")]
    against: Option<PathBuf>,
    /// Print the list as JSON
    #[arg(long)]
    json: bool,
}

/// A file, the name it has in a list, what was seen of it, its edges without a partner.
struct Found {
    name: String,
    seen: Seen,
    open: Option<u64>,
}

/// One line of the list that is printed.
struct Row {
    code: &'static str,
    words: String,
    found: Option<Found>,
    listed: Option<Line>,
    path: String,
}

pub fn run(asked: &Asked) -> Result<(String, u8), Trouble> {
    let against = asked.against.as_deref().map(manifest::read).transpose()?;
    let files = walk(&asked.paths);
    let bar = progress(&files);
    let mut found: Vec<Found> = files
        .into_par_iter()
        .map(|(path, name, size)| {
            let found = look(path, name, asked.closed);
            bar.inc(size);
            found
        })
        .collect();
    bar.finish_and_clear();
    found.sort_by(|a, b| a.seen.path.cmp(&b.seen.path));
    let named = if asked.manifest.is_some() || against.is_some() { by_name(&found)? } else { BTreeMap::new() };
    if let Some(path) = &asked.manifest {
        crate::plan::write(path, manifest::text(&named).as_bytes())?;
    }
    let rows = match against {
        Some(list) => held(found, list),
        None => found.into_iter().map(row).collect(),
    };
    Ok(told(asked, rows))
}

/// All part files under the paths: the path, the name in a list (from the folder it was found under), its size.
fn walk(paths: &[PathBuf]) -> Vec<(PathBuf, Option<String>, u64)> {
    let walked = paths.par_iter().flat_map_iter(|root| {
        WalkDir::new(root).follow_links(true).into_iter().filter_map(move |entry| match entry {
            Ok(entry) if entry.depth() > 0 && (entry.file_type().is_dir() || !is_part(entry.path())) => None,
            Ok(entry) if entry.file_type().is_dir() => None,
            Ok(entry) => {
                let path = entry.path();
                let name = path.strip_prefix(root).ok().filter(|name| !name.as_os_str().is_empty());
                let name = name.or(path.file_name().map(Path::new)).unwrap_or(path);
                Some((path.to_path_buf(), Some(one_line(name)), entry.metadata().map_or(0, |data| data.len())))
            }
            // a link that leads nowhere or in a ring, a folder without the right to read it
            Err(error) => {
                let path = error.path().unwrap_or(root).to_path_buf();
                let part = path == *root || is_part(&path) || path.is_dir();
                part.then_some((path, None, 0))
            }
        })
    });
    walked.collect()
}

fn is_part(path: &Path) -> bool {
    path.extension().is_some_and(|e| e.eq_ignore_ascii_case("stl") || e.eq_ignore_ascii_case("ftm"))
}

fn progress(files: &[(PathBuf, Option<String>, u64)]) -> ProgressBar {
    // it draws on standard error, and only if that is a terminal
    let bar = ProgressBar::new(files.iter().map(|file| file.2).sum());
    if let Ok(style) = ProgressStyle::with_template("{bar:40} {bytes} of {total_bytes}, {bytes_per_sec}, {eta} to go") {
        bar.set_style(style);
    }
    bar
}

fn look(path: PathBuf, name: Option<String>, closed: bool) -> Found {
    let (seen, content) = match std::fs::metadata(&path) {
        Ok(data) if data.is_dir() => (unreadable(&path, "a folder that can't be walked, or a link in a ring".into()), Content::Nothing),
        _ => examine(&path),
    };
    let open = match &content {
        Content::Mesh(mesh) if closed => Some(edges_without_partner(mesh)),
        Content::Job(job) if closed => Some(edges_without_partner(&job.mesh)),
        Content::Um(job) if closed => Some(edges_without_partner(&in_f64(&job.mesh))),
        _ => None,
    };
    Found { name: name.unwrap_or_else(|| one_line(&path)), seen, open }
}

fn by_name(found: &[Found]) -> Result<BTreeMap<String, &Seen>, Trouble> {
    let mut out = BTreeMap::new();
    for file in found {
        if out.insert(file.name.clone(), &file.seen).is_some() {
            return Err(Trouble::use_of(format!("two files would stand in the list as {}", file.name), "count one folder at a time"));
        }
    }
    Ok(out)
}

fn row(found: Found) -> Row {
    let mut words = found.seen.verdict.words();
    match found.open {
        Some(0) => words += ", closed",
        Some(open) => words += &format!(", {} without a partner", many(open, "edge")),
        None => {}
    }
    Row { code: found.seen.verdict.code(), words, path: one_line(&found.seen.path), found: Some(found), listed: None }
}

/// The files held to a list: each one found, and each one missing.
fn held(found: Vec<Found>, mut list: BTreeMap<String, Line>) -> Vec<Row> {
    let mut rows: Vec<Row> = found
        .into_iter()
        .map(|file| {
            let listed = list.remove(&file.name);
            let mut row = row(file);
            let seen = &row.found.as_ref().expect("it was found").seen;
            match &listed {
                None => (row.code, row.words) = ("extra", format!("extra, not in the list; {}", row.words)),
                Some(line) if seen.sha256.as_deref() == Some(&line.sha256) || seen.verdict != Verdict::Whole => {}
                Some(line) => (row.code, row.words) = ("changed", changed(seen, line)),
            }
            row.listed = listed;
            row
        })
        .collect();
    rows.extend(list.into_iter().map(|(name, line)| {
        let words = format!("missing; the list has {}", line.present.map_or("it".into(), |n| many(n, "triangle")));
        Row { code: "missing", words, found: None, listed: Some(line), path: name }
    }));
    rows
}

fn changed(seen: &Seen, line: &Line) -> String {
    match (seen.present, line.present) {
        (Some(now), Some(then)) if now != then => format!("changed: {}, the list has {}", many(now, "triangle"), thousands(then)),
        (Some(now), _) => format!("changed, of {} as in the list", many(now, "triangle")),
        _ => "changed".into(),
    }
}

/// What is printed, and the status.
fn told(asked: &Asked, rows: Vec<Row>) -> (String, u8) {
    let bad: Vec<&Row> = rows.iter().filter(|row| row.code != "whole").collect();
    let status = u8::from(!bad.is_empty() || rows.is_empty());
    if rows.is_empty() {
        eprintln!("mandrikelo: no .stl or .ftm file there\n  what to do: check the path; an empty folder may be a copy that never came");
    } else {
        eprintln!("mandrikelo: {}, {} whole, {} not", many(rows.len() as u64, "file"), thousands((rows.len() - bad.len()) as u64),
            thousands(bad.len() as u64));
        let mut advice: Vec<(&str, &str)> = bad.iter().map(|row| (row.code, next(row))).collect();
        advice.sort_unstable();
        advice.dedup();
        for (code, next) in advice {
            eprintln!("  {code}: {next}");
        }
    }
    let out = if asked.json { format!("{:#}\n", Value::Array(rows.iter().map(as_json).collect())) } else { as_text(&rows) };
    (out, status)
}

fn next(row: &Row) -> &'static str {
    match (row.code, &row.found) {
        ("missing", _) => "copy the file from where the list was made",
        ("changed", _) => "find out who changed it; copy it again if nobody did",
        ("extra", _) => "remove it, or make the list anew",
        (_, Some(found)) => found.seen.verdict.advice(),
        _ => "",
    }
}

fn as_text(rows: &[Row]) -> String {
    let number = |number: Option<u64>| number.map_or("-".into(), thousands);
    let lines: Vec<[String; 6]> = rows
        .iter()
        .map(|row| {
            let seen = row.found.as_ref().map(|found| &found.seen);
            [
                row.words.clone(),
                number(seen.and_then(|seen| seen.declared)),
                number(seen.and_then(|seen| seen.present)),
                number(seen.filter(|seen| seen.sha256.is_some()).map(|seen| seen.size)),
                seen.and_then(|seen| seen.sha256.clone()).unwrap_or("-".into()),
                row.path.clone(),
            ]
        })
        .collect();
    let wide = |k: usize| lines.iter().map(|line| line[k].chars().count()).max().unwrap_or(0);
    let [a, b, c, d] = [0, 1, 2, 3].map(wide);
    lines.iter().map(|[words, n, m, size, sha, path]| format!("{words:<a$}  {n:>b$}  {m:>c$}  {size:>d$}  {sha:<64}  {path}\n")).collect()
}

fn as_json(row: &Row) -> Value {
    let mut out = json!({ "path": row.path, "verdict": row.code, "words": row.words });
    if let Some(found) = &row.found {
        let seen = &found.seen;
        out["format"] = json!(seen.form.map(|form| form.name()));
        out["declared"] = json!(seen.declared);
        out["present"] = json!(seen.present);
        out["size"] = json!(seen.sha256.as_ref().map(|_| seen.size));
        out["sha256"] = json!(seen.sha256);
        out["edges_without_partner"] = json!(found.open);
    }
    if let Some(line) = &row.listed {
        out["listed"] = json!({ "sha256": line.sha256, "size": line.size, "declared": line.declared, "present": line.present, "verdict": line.code });
    }
    out
}

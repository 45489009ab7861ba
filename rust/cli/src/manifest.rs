//! The list of a folder's files that another copy is held to.
//!
//! A text: a heading, a line a file (SHA-256, bytes, triangles declared and present, verdict, name, with tabs between them), and a last
//! line with the number of files and the SHA-256 of all the lines above it, so that a list that broke off is seen as well.
use crate::files::Seen;
use crate::trouble::Trouble;
use sha2::{Digest, Sha256};
use std::collections::BTreeMap;
use std::path::Path;

const HEADING: &str = "# mandrikelo manifest 1: sha256, bytes, triangles declared, triangles present, verdict, name\n";

/// What a list says of a file.
#[derive(Clone, Debug, PartialEq)]
pub struct Line {
    pub sha256: String,
    pub size: u64,
    pub declared: Option<u64>,
    pub present: Option<u64>,
    pub code: String,
}

fn told(number: Option<u64>) -> String {
    number.map_or("-".into(), |number| number.to_string())
}

/// The list of the files by their names.
pub fn text(files: &BTreeMap<String, &Seen>) -> String {
    let mut out = HEADING.to_string();
    for (name, seen) in files {
        let sha = seen.sha256.as_deref().unwrap_or("-");
        let (declared, present) = (told(seen.declared), told(seen.present));
        out.push_str(&format!("{sha}\t{}\t{declared}\t{present}\t{}\t{name}\n", seen.size, seen.verdict.code()));
    }
    let sum = format!("{:x}", Sha256::digest(&out));
    out + &end(files.len(), &sum)
}

fn end(files: usize, sum: &str) -> String {
    format!("# end: {files} files, sha256 of the lines above {sum}\n")
}

/// Reads a list, or says what is wrong with it.
pub fn read(path: &Path) -> Result<BTreeMap<String, Line>, Trouble> {
    let text = std::fs::read_to_string(path).map_err(|error| Trouble::file(path, &error))?;
    parse(&text).map_err(|what| Trouble::use_of(format!("{}: {what}", path.display()), "take a list that --manifest wrote, and copy it again"))
}

fn parse(text: &str) -> Result<BTreeMap<String, Line>, String> {
    let body = text.strip_prefix(HEADING).ok_or("not a list that --manifest wrote")?;
    let last = text.rfind("# end: ").ok_or("the list itself is cut: it has no last line")?;
    let mut out = BTreeMap::new();
    let lines = body[..last - HEADING.len()].lines();
    for line in lines {
        let words: Vec<&str> = line.splitn(6, '\t').collect();
        let [sha256, size, declared, present, code, name] = words[..] else {
            return Err(format!("a line of it is damaged: {line}"));
        };
        let size = size.parse().map_err(|_| format!("a line of it is damaged: {line}"))?;
        let line = Line { sha256: sha256.into(), size, declared: declared.parse().ok(), present: present.parse().ok(), code: code.into() };
        out.insert(name.to_string(), line);
    }
    let sum = format!("{:x}", Sha256::digest(&text.as_bytes()[..last]));
    if text[last..] != end(out.len(), &sum) {
        return Err("the list itself is cut or damaged: its last line does not fit it".into());
    }
    Ok(out)
}

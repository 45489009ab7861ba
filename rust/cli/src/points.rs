//! Points and numbers from the command line, or from a file of a line each.
use crate::trouble::Trouble;
use std::path::Path;

/// Numbers with commas or blanks between them.
pub fn numbers(text: &str) -> Result<Vec<f64>, String> {
    let words = text.split(|c: char| c == ',' || c == ';' || c.is_whitespace()).filter(|word| !word.is_empty());
    words.map(|word| word.parse().map_err(|_| format!("{word} is not a number"))).collect()
}

fn some<const N: usize>(text: &str) -> Result<[f64; N], String> {
    let found = numbers(text)?;
    let many = found.len();
    found.try_into().map_err(|_| format!("{many} where {N} numbers are wanted, with commas between them"))
}

pub fn two(text: &str) -> Result<[f64; 2], String> {
    some(text)
}

pub fn three(text: &str) -> Result<[f64; 3], String> {
    some(text)
}

/// X,Y for a point, or AX,AY,BX,BY for a sweep.
pub fn sweep(text: &str) -> Result<[f64; 4], String> {
    match numbers(text)?[..] {
        [x, y] => Ok([x, y, x, y]),
        [ax, ay, bx, by] => Ok([ax, ay, bx, by]),
        ref other => Err(format!("{} where two numbers are wanted for a point, or four for two ends, with commas between them", other.len())),
    }
}

/// The lines of a file, each read the same way; `#` begins a comment, empty lines are left out. `-` is standard input.
pub fn lines<T>(path: &Path, read: impl Fn(&str) -> Result<T, String>) -> Result<Vec<T>, Trouble> {
    let text = if path.as_os_str() == "-" { std::io::read_to_string(std::io::stdin()) } else { std::fs::read_to_string(path) };
    let text = text.map_err(|error| Trouble::file(path, &error))?;
    let mut out = Vec::new();
    for (k, line) in text.lines().enumerate() {
        let line = line.split('#').next().unwrap_or("").trim();
        if !line.is_empty() {
            let place = format!("{}, line {}", path.display(), k + 1);
            let wrong = |what| Trouble::use_of(format!("{place}: {what}"), "write a line each, its numbers with blanks or commas between them");
            out.push(read(line).map_err(wrong)?);
        }
    }
    Ok(out)
}

//! What a file is: its length and SHA-256, its triangles declared and present, and a verdict.
//!
//! Whether a binary STL file or a job is whole, and how many whole triangles stand before a cut, is what the proved readers say. The
//! host works out what they do not tell: the count a head declares, the triangles that a file over the limit has, where a number is
//! not finite, and all of ASCII STL.
use crate::ascii::{Ascii, Broken};
use crate::words::{many, thousands};
use mandrikelo::{um, Job, Mesh, Refusal, MOST_TRIANGLES};
use sha2::{Digest, Sha256};
use std::fs::File;
use std::io::{self, Read};
use std::path::{Path, PathBuf};

/// One byte more than the longest file that a reader accepts, a job: what follows it changes no refusal.
const KEPT: usize = 30 + 112 * MOST_TRIANGLES + 1;

#[derive(Clone, Copy, Debug, PartialEq, Eq)]
pub enum Form {
    BinaryStl,
    AsciiStl,
    Job,
    JobUm,
}

impl Form {
    pub fn name(self) -> &'static str {
        match self {
            Form::BinaryStl => "binary STL",
            Form::AsciiStl => "ASCII STL",
            Form::Job => "job",
            Form::JobUm => "job in micrometres",
        }
    }
}

#[derive(Clone, Debug, PartialEq)]
pub enum Verdict {
    Whole,
    Cut(String),
    Surplus(String),
    NotFinite(String),
    Over(String),
    NoTriangle,
    NotThisFile(String),
    Unreadable(String),
}

impl Verdict {
    /// One word, for lists that programs read.
    pub fn code(&self) -> &'static str {
        match self {
            Verdict::Whole => "whole",
            Verdict::Cut(_) => "cut",
            Verdict::Surplus(_) => "surplus",
            Verdict::NotFinite(_) => "not-finite",
            Verdict::Over(_) => "over",
            Verdict::NoTriangle => "no-triangle",
            Verdict::NotThisFile(_) => "not-this-file",
            Verdict::Unreadable(_) => "unreadable",
        }
    }

    pub fn words(&self) -> String {
        match self {
            Verdict::Whole => "whole".into(),
            Verdict::Cut(what) => format!("cut, {what}"),
            Verdict::Surplus(what) => format!("surplus bytes: {what}"),
            Verdict::NotFinite(what) => format!("numbers that are not finite: {what}"),
            Verdict::Over(what) => format!("over {} {what}", thousands(MOST_TRIANGLES as u64)),
            Verdict::NoTriangle => "no triangle".into(),
            Verdict::NotThisFile(what) => what.clone(),
            Verdict::Unreadable(why) => format!("unreadable: {why}"),
        }
    }

    /// What to do next.
    pub fn advice(&self) -> &'static str {
        match self {
            Verdict::Whole => "",
            Verdict::Cut(_) => "copy the file again from where it is whole, and count it again",
            Verdict::Surplus(_) => "copy the file again: two files may be stuck together, or its count is damaged",
            Verdict::NotFinite(_) => "export the part again",
            Verdict::Over(_) => "export the part with a coarser chord tolerance, or split it",
            Verdict::NoTriangle => "export the part with its solid",
            Verdict::NotThisFile(_) => "check that it is the file that you meant",
            Verdict::Unreadable(_) => "check the path, the rights and the disk",
        }
    }
}

/// What was seen of a file.
#[derive(Clone, Debug)]
pub struct Seen {
    pub path: PathBuf,
    pub form: Option<Form>,
    pub size: u64,
    pub sha256: Option<String>,
    pub declared: Option<u64>,
    pub present: Option<u64>,
    pub verdict: Verdict,
}

/// What a whole file holds, for those that plan.
pub enum Content {
    Mesh(Mesh),
    Job(Job),
    Um(um::Job),
    Nothing,
}

/// A mesh of whole micrometres as a mesh of f64s: every i32 is one.
pub fn in_f64(mesh: &um::Mesh) -> Mesh {
    Mesh::from_numbers(mesh.numbers().iter().map(|x| f64::from(*x)).collect())
}

pub fn unreadable(path: &Path, why: String) -> Seen {
    Seen { path: path.into(), form: None, size: 0, sha256: None, declared: None, present: None, verdict: Verdict::Unreadable(why) }
}

/// Reads a file to its end.
pub fn examine(path: &Path) -> (Seen, Content) {
    match read(path) {
        Ok(seen) => seen,
        Err(error) => (unreadable(path, in_words(&error)), Content::Nothing),
    }
}

pub fn in_words(error: &io::Error) -> String {
    match error.kind() {
        io::ErrorKind::NotFound => "no such file".into(),
        io::ErrorKind::PermissionDenied => "no right to read it".into(),
        _ => error.to_string(),
    }
}

/// A file that is opened; a pipe or a device would not come to an end.
fn regular(path: &Path) -> io::Result<File> {
    if std::fs::metadata(path)?.is_file() {
        return File::open(path);
    }
    Err(io::Error::new(io::ErrorKind::Other, "not a regular file"))
}

fn read(path: &Path) -> io::Result<(Seen, Content)> {
    let mut file = regular(path)?;
    let told = file.metadata()?.len();
    let mut kept = Vec::with_capacity(told.min(KEPT as u64) as usize + 1);
    (&mut file).take(KEPT as u64).read_to_end(&mut kept)?;
    let mut sha = Sha256::new();
    sha.update(&kept);
    let form = form_of(path, &kept, told);
    let mut ascii = (form == Form::AsciiStl).then(|| Ascii::new(MOST_TRIANGLES));
    if let Some(ascii) = &mut ascii {
        ascii.feed(&kept);
    }
    let (mut size, mut chunk) = (kept.len() as u64, Vec::new());
    while kept.len() == KEPT {
        chunk.resize(1 << 20, 0);
        let got = file.read(&mut chunk)?;
        if got == 0 {
            break;
        }
        size += got as u64;
        sha.update(&chunk[..got]);
        if let Some(ascii) = &mut ascii {
            ascii.feed(&chunk[..got]);
        }
    }
    let sha256 = Some(format!("{:x}", sha.finalize()));
    let mut seen = Seen { path: path.into(), form: Some(form), size, sha256, declared: None, present: Some(0), verdict: Verdict::Whole };
    let content = match form {
        Form::AsciiStl => text(&mut seen, ascii.expect("it was fed")),
        Form::BinaryStl => binary(&mut seen, &kept),
        Form::Job => job(&mut seen, &kept, 30, 72, 40, Job::read(&kept).map(Content::Job)),
        Form::JobUm => job(&mut seen, &kept, 22, 36, 20, um::Job::read(&kept).map(Content::Um)),
    };
    if size == 0 {
        seen.verdict = Verdict::Cut("an empty file".into());
    }
    Ok((seen, content))
}

/// A job by its name or its mark; a binary STL file if its length is that of its count; ASCII if it begins so; else binary.
fn form_of(path: &Path, head: &[u8], size: u64) -> Form {
    let name = path.extension().map(|e| e.to_ascii_lowercase());
    if name.as_deref() == Some("ftm".as_ref()) || (name.as_deref() != Some("stl".as_ref()) && head.starts_with(b"FTM")) {
        // version 2 counts in whole micrometres
        return if head.starts_with(b"FTM\x02\0") { Form::JobUm } else { Form::Job };
    }
    let fits = count_at(head, 80).is_some_and(|n| size == 84 + 50 * n);
    if !fits && Ascii::begins(head) {
        Form::AsciiStl
    } else {
        Form::BinaryStl
    }
}

fn count_at(bytes: &[u8], at: usize) -> Option<u64> {
    bytes.get(at..at + 4).map(|count| u64::from(u32::from_le_bytes(count.try_into().expect("four bytes"))))
}

fn number_words(triangle: u64, number: u32) -> String {
    let axis = ["x", "y", "z"][number as usize % 3];
    format!("{axis} of corner {} of triangle {triangle}, counted from 0", number / 3)
}

fn text(seen: &mut Seen, mut ascii: Ascii) -> Content {
    ascii.finish();
    seen.present = Some(ascii.triangles);
    let whole = many(ascii.triangles, "whole triangle");
    seen.verdict = match (&ascii.broken, ascii.not_finite) {
        (Some(Broken::NoEnd), _) => Verdict::Cut(format!("{whole}, then it ends without endsolid")),
        (Some(Broken::Facet { line }), _) => Verdict::Cut(format!("{whole}, then a broken facet in line {}", thousands(*line))),
        _ if ascii.triangles == 0 => Verdict::NoTriangle,
        _ if ascii.triangles > MOST_TRIANGLES as u64 => Verdict::Over(format!("triangles: {} present", thousands(ascii.triangles))),
        (Some(Broken::Surplus { line }), _) => Verdict::Surplus(format!("text behind endsolid, in line {}", thousands(*line))),
        (None, Some((triangle, number))) => Verdict::NotFinite(number_words(triangle, number)),
        (None, None) => return Content::Mesh(Mesh::from_numbers(ascii.numbers)),
    };
    Content::Nothing
}

fn binary(seen: &mut Seen, bytes: &[u8]) -> Content {
    seen.declared = count_at(bytes, 80);
    let declared = seen.declared.unwrap_or(0);
    let room = seen.size.saturating_sub(84) / 50;
    seen.present = Some(room.min(declared));
    match Mesh::from_stl(bytes) {
        Ok(mesh) => return Content::Mesh(mesh),
        Err(refusal) => seen.verdict = refused(refusal, seen, declared, 84 + 50 * declared, || first_bad_single(bytes)),
    }
    Content::Nothing
}

/// A job, by what its reader said: so many bytes have its head, a triangle and a question.
fn job(seen: &mut Seen, bytes: &[u8], head: u64, triangle: u64, question: u64, read: Result<Content, Refusal>) -> Content {
    let (triangles, questions) = (count_at(bytes, 6), count_at(bytes, 10));
    let (n, m) = (triangles.unwrap_or(0), questions.unwrap_or(0));
    match read {
        Ok(content) => {
            (seen.declared, seen.present) = (Some(n), Some(n));
            return content;
        }
        Err(refusal) => {
            if !matches!(refusal, Refusal::Head | Refusal::Mark | Refusal::Version | Refusal::SixthByte) {
                seen.declared = triangles;
                seen.present = Some((seen.size.saturating_sub(head) / triangle).min(n));
            }
            seen.verdict = match refusal {
                Refusal::Count if (1..=MOST_TRIANGLES as u64).contains(&n) => Verdict::Over(format!("questions: {} declared", thousands(m))),
                _ => refused(refusal, seen, n, head + triangle * n + question * m, || first_bad_double(bytes, n)),
            };
        }
    }
    Content::Nothing
}

/// A reader's refusal as a verdict.
fn refused(refusal: Refusal, seen: &mut Seen, declared: u64, wanted: u64, place: impl Fn() -> String) -> Verdict {
    match refusal {
        Refusal::Head => Verdict::Cut(format!("{} are no whole head", many(seen.size, "byte"))),
        Refusal::Count if declared == 0 => Verdict::NoTriangle,
        Refusal::Count => {
            let present = seen.present.unwrap_or(0);
            Verdict::Over(format!("triangles: {} declared, {} present", thousands(declared), thousands(present)))
        }
        Refusal::Cut { whole } => {
            seen.present = Some(whole.into());
            let missing = many(wanted - seen.size, "byte");
            let what = format!("{} of {}", thousands(whole.into()), many(declared, "triangle"));
            Verdict::Cut(if u64::from(whole) == declared { format!("{what}, but {missing} behind them are missing") } else { what })
        }
        Refusal::Surplus => Verdict::Surplus(format!("{} more than {} take", thousands(seen.size - wanted), many(declared, "triangle"))),
        Refusal::NotFinite => Verdict::NotFinite(place()),
        Refusal::Mark => Verdict::NotThisFile("no job: its mark is not FTM".into()),
        Refusal::Version => Verdict::NotThisFile("a job of another version than 1 and 2".into()),
        Refusal::SixthByte => Verdict::NotThisFile("no job: its sixth byte is not 0".into()),
        other => Verdict::NotThisFile(other.to_string()),
    }
}

fn first_bad_single(bytes: &[u8]) -> String {
    for (triangle, facet) in bytes[84..].chunks_exact(50).enumerate() {
        for (number, single) in facet[12..48].chunks_exact(4).enumerate() {
            if !f32::from_le_bytes(single.try_into().expect("four bytes")).is_finite() {
                return number_words(triangle as u64, number as u32);
            }
        }
    }
    "in a corner".into()
}

fn first_bad_double(bytes: &[u8], triangles: u64) -> String {
    let number = bytes[14..].chunks_exact(8).position(|double| !f64::from_le_bytes(double.try_into().expect("eight bytes")).is_finite());
    match number {
        Some(0) => "the floor".into(),
        Some(1) => "the radius".into(),
        Some(at) if (at - 2) as u64 / 9 < triangles => number_words((at - 2) as u64 / 9, ((at - 2) % 9) as u32),
        Some(at) => {
            let at = at - 2 - 9 * triangles as usize;
            format!("number {} of question {}, counted from 0", at % 5, at / 5)
        }
        None => "in a number".into(),
    }
}

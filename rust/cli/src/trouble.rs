//! Why the program stops: what happened, what to do next, and the status that it leaves.
use mandrikelo::Refusal;
use std::io;
use std::path::Path;

#[derive(Debug)]
pub struct Trouble {
    pub words: String,
    pub status: u8,
}

impl Trouble {
    /// Wrong use: status 2.
    pub fn use_of(what: impl Into<String>, next: &str) -> Trouble {
        Trouble { words: format!("{}\n  what to do: {next}", what.into()), status: 2 }
    }

    /// A part, a tool or a plan that is refused: status 1.
    pub fn refused(what: impl Into<String>, next: &str) -> Trouble {
        Trouble { words: format!("{}\n  what to do: {next}", what.into()), status: 1 }
    }

    /// A refusal of the planner.
    pub fn planner(who: &str, refusal: Refusal) -> Trouble {
        let told = refusal.to_string();
        let what = told.strip_suffix(refusal.advice()).map_or(&told[..], |what| what.trim_end_matches("; "));
        Trouble::refused(format!("{who}: {what}"), refusal.advice())
    }

    /// A file that can't be written.
    pub fn written(path: &Path, error: &io::Error) -> Trouble {
        let why = if error.kind() == io::ErrorKind::NotFound { "no such folder".into() } else { error.to_string() };
        Trouble::use_of(format!("{} can't be written: {why}", path.display()), "check the path, the rights and the room on the disk")
    }

    /// A file that can't be read.
    pub fn file(path: &Path, error: &io::Error) -> Trouble {
        Trouble::use_of(format!("{}: {}", path.display(), crate::files::in_words(error)), "check the path, the rights and the disk")
    }
}

//! The release desk's program over the proved planner. It opens files, lends memory, prints and draws; `docs/TRUSTED.md` says what that
//! leaves to be believed.
mod ascii;
mod ask;
mod closed;
mod count;
mod files;
mod job;
mod look_over;
mod manifest;
mod part;
mod plan;
mod planned;
mod points;
mod setup;
mod sheet;
mod svg;
mod toolsheet;
mod trouble;
mod words;

use clap::{Parser, Subcommand};
use std::io::Write;
use std::process::ExitCode;

/// Counts part files, plans flat runs, answers questions about a part and makes its release sheet. What is answered about a part is
/// proved; reading ASCII files, scaling, drawing and printing are not (docs/TRUSTED.md)
#[derive(Parser)]
#[command(name = "mandrikelo", version, arg_required_else_help = true, after_help = "Every refusal is told in words, with what to do next.\n\
Exit status: 0 all well, 1 something is not whole or was refused, 2 wrong use.\n\n\
Examples:\n  mandrikelo count parts --against parts.list\n  mandrikelo plan examples/parts/bearing_block.stl --floor -8 --radius 3 --stepover 4\n  \
mandrikelo sheet examples/parts/bearing_block.stl --floor -8 --radius 3 --stepover 4 \\\n      --cutting-length 30 --out block.html")]
struct Program {
    #[command(subcommand)]
    what: What,
}

#[derive(Subcommand)]
enum What {
    /// Count the triangles of every .stl and .ftm file under some folders, before you believe them
    #[command(after_help = "A line a file: the verdict, triangles declared and present, bytes, SHA-256, path.\n\
Exit status: 0 all whole, 1 something is not, 2 wrong use.\n\n\
Examples:\n  mandrikelo count parts\n  mandrikelo count parts --manifest parts.list        at the desk\n  \
mandrikelo count parts --against parts.list         at a site, after the copy\n  mandrikelo count parts --json | jq '.[] | select(.verdict != \"whole\")'")]
    Count(count::Asked),
    /// Plan the flat runs of a part, draw them, write them and the moves for them
    #[command(after_help = "Lengths are in the part's own unit, or in what --scale makes of it.\n\n\
Examples:\n  mandrikelo plan examples/parts/bearing_block.stl --floor -8 --radius 3 --stepover 4 \\\n      --svg block.svg\n  \
mandrikelo plan examples/plans/plate.job --stepover 4 --cutting-length 30 --json -\n  \
mandrikelo plan part.stl --scale 25.4 --floor 0 --radius 3 --stepover 4 \\\n      --moves part.ftp \
--moves part.csv \\\n      --clearance 20 --retract 12 --feed 11 --start 0,0,30")]
    Plan(plan::Asked),
    /// The highest point under a disk, at a point or swept along a line
    #[command(after_help = "A line a question: the height, its bits, the triangles looked at, and what is touched there;\n\
triangles, corners and edges are counted from 0, edge k from corner k to the next.\nStatus 1 if a question is refused.\n\n\
Examples:\n  mandrikelo height examples/parts/bearing_block.stl --floor -8 --radius 3 \\\n      --at 50,30 --at 0,0,100,60\n  \
mandrikelo height examples/jobs/plate_with_boss.job                 its own questions\n  \
mandrikelo height part.stl --floor 0 --radius 3 --points points.txt --json")]
    Height(ask::Height),
    /// The highest tip of a bull-nose cutter over a point
    #[command(after_help = "Example:\n  mandrikelo bull examples/parts/bearing_block.stl --floor -8 --radius 3 \\\n      --corner 1 --at 50,30")]
    Bull(ask::Bull),
    /// The highest tip of a tool of sections over a point
    #[command(after_help = "Example:\n  mandrikelo sections examples/parts/bearing_block.stl --floor -8 \\\n      \
--tool examples/tools/end_mill.tool --at 50,30")]
    Sections(ask::Sections),
    /// Whether a tool stays clear of the part on its way from one tip to another
    #[command(after_help = "Examples:\n  mandrikelo chord examples/parts/bearing_block.stl --floor -8 \\\n      \
--tool examples/tools/end_mill.tool --from 0,0,12 --to 100,60,12\n  \
mandrikelo chord examples/parts/bearing_block.stl --floor -8 --radius 3 --corner 1 \\\n      --from 0,0,5 --to 100,60,5")]
    Chord(ask::Chord),
    /// Look over another planner's moves: is every rapid clear, and no cut too deep
    #[command(after_help = "Counts moves from 0. Status 0 if the path passes, 1 if it does not or is refused.\n\n\
Example:\n  mandrikelo look-over part.ftp part.stl --floor 0 --radius 3 --tool end_mill.tool")]
    LookOver(look_over::Asked),
    /// Set-up heights over a job in whole micrometres
    #[command(after_help = "A line a question: the height, the triangles looked at, the boxes in reach, all in whole micrometres.\n\n\
Examples:\n  mandrikelo setup part.ftm                            its own questions\n  \
mandrikelo setup part.ftm --at 12000,8000,40000,8000 --radius 3000")]
    Setup(setup::Asked),
    /// The sections of a tool from its sheet
    #[command(after_help = toolsheet::HELP)]
    Tool(toolsheet::Asked),
    /// From a part to a job and back, and as text
    #[command(after_help = job::HELP)]
    Job(job::Asked),
    /// One page for release: the file's count and SHA-256, the plan, its picture, what was dropped, what holds
    #[command(after_help = "The page is one file that needs nothing else, to look at in a browser and to print.\n\n\
Example:\n  mandrikelo sheet examples/parts/bearing_block.stl --floor -8 --radius 3 --stepover 4 \\\n      --out block.html")]
    Sheet(sheet::Asked),
}

fn main() -> ExitCode {
    let program = Program::parse();
    let done = match &program.what {
        What::Count(asked) => count::run(asked),
        What::Plan(asked) => plan::run(asked),
        What::Height(asked) => ask::height(asked),
        What::Bull(asked) => ask::bull(asked),
        What::Sections(asked) => ask::sections(asked),
        What::Chord(asked) => ask::chord(asked),
        What::LookOver(asked) => look_over::run(asked),
        What::Setup(asked) => setup::run(asked),
        What::Tool(asked) => toolsheet::run(asked),
        What::Job(asked) => job::run(asked),
        What::Sheet(asked) => sheet::run(asked),
    };
    let (out, status) = match done {
        Ok(done) => done,
        Err(trouble) => {
            eprintln!("mandrikelo: {}", trouble.words);
            return ExitCode::from(trouble.status);
        }
    };
    let mut stdout = std::io::stdout().lock();
    match stdout.write_all(out.as_bytes()).and_then(|()| stdout.flush()) {
        Ok(()) => ExitCode::from(status),
        // whoever reads has seen enough
        Err(error) if error.kind() == std::io::ErrorKind::BrokenPipe => ExitCode::from(status),
        Err(error) => {
            eprintln!("mandrikelo: standard output: {error}");
            ExitCode::from(2)
        }
    }
}

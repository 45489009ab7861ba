//! The bench's tables over parts that look like real ones: `bench parts` and `bench growth`.
//!
//! A cell is how many times camlib's own time (as shipped) ours takes: medians of rounds in turn, by the thread's processor clock.

use crate::MISSING;
use crate::bed::{Asked, Bed, Kind, Room, medians};
use crate::bench::{line, used};
use crate::rng::Rng;
use crate::solids::{self, SOLIDS};
use oracle_shipped::flat::door as shipped;

const SIZES: [usize; 2] = [2_000, 20_000];
const RADII: [f64; 2] = [2., 6.];

#[derive(Clone, Copy, PartialEq)]
enum What {
    /// At a point; from a point to another; the same close over the part, and high over it.
    Point(Kind),
    Line(Kind),
    Low(Kind),
    High(Kind),
    Build,
    Plan,
}

const ROWS: &[(&str, What)] = &[
    ("height at a point", What::Point(Kind::Height)),
    ("height along a line", What::Line(Kind::Height)),
    ("max_bull", What::Point(Kind::Bull)),
    ("max_sections", What::Point(Kind::Sections)),
    ("bull chord, low", What::Low(Kind::BullChord)),
    ("bull chord, high", What::High(Kind::BullChord)),
    ("sections chord, low", What::Low(Kind::SectionsChord)),
    ("sections chord, high", What::High(Kind::SectionsChord)),
    ("build", What::Build),
    ("build and plan", What::Plan),
];

impl What {
    fn doors(self) -> Vec<&'static str> {
        match self {
            What::Point(kind) | What::Line(kind) | What::Low(kind) | What::High(kind) => vec![kind.door()],
            What::Build => vec!["build"],
            What::Plan => vec!["build", "plan"],
        }
    }
}

/// A bed with its floor a millimetre under the part.
fn bed(mesh: Vec<f64>, r: f64) -> Bed {
    let lowest = mesh.chunks_exact(3).map(|v| v[2]).fold(f64::INFINITY, f64::min);
    Bed::new(mesh, lowest - 1., r)
}

/// How many questions make a round: few where one takes long.
fn many(what: What) -> usize {
    match what {
        What::Point(Kind::Height) | What::Line(_) => 400,
        What::High(_) => 200,
        What::Low(_) => 20,
        _ => 100,
    }
}

/// The two ends of a question in plan.
type Ends = [[f64; 2]; 2];

/// From anywhere within these bounds to up to 5 mm away along each axis.
fn ends(rng: &mut Rng, low: [f64; 2], high: [f64; 2]) -> Ends {
    let p = [0, 1].map(|k| rng.between(low[k], high[k]));
    [p, [0, 1].map(|k| (p[k] + rng.between(-5., 5.)).clamp(low[k], high[k]))]
}

/// Ends within the part's box in plan.
fn over(bed: &Bed) -> impl Fn(&mut Rng) -> Ends {
    let (low, high) = bed.reach();
    move |rng| ends(rng, [low[0], low[1]], [high[0], high[1]])
}

/// Points, lines, chords whose ends lie a tenth of a millimetre over where the cutter rests there, chords 2 mm over the whole part.
fn questions(bed: &Bed, what: What, places: &dyn Fn(&mut Rng) -> Ends) -> (Kind, Vec<Asked>) {
    let (What::Point(kind) | What::Line(kind) | What::Low(kind) | What::High(kind)) = what else { unreachable!() };
    let top = bed.reach().1[2];
    let mut rng = Rng::new(5, "parts", 0);
    let mut seen = bed.seen();
    let rests = if kind == Kind::BullChord { Kind::Bull } else { Kind::Sections };
    let all = (0..many(what)).map(|_| {
        let [p, q] = places(&mut rng);
        let [a, b] = [p, if let What::Point(_) = what { p } else { q }].map(|p| {
            let at = [p[0], p[1], top + 2.];
            match what {
                What::Low(_) => [p[0], p[1], bed.as_doc(rests, &Asked(at, at), &mut seen) + 0.1],
                _ => at,
            }
        });
        Asked(a, b)
    });
    (kind, all.collect())
}

/// Nanoseconds of ours and of camlib as shipped.
type Times = [f64; 2];

/// Asks once beside camlib with document 01's numbers, then times.
fn asked(bed: &Bed, kind: Kind, all: &[Asked], spend: f64, told: &mut Told) -> Times {
    let (mut a, mut b) = (bed.seen(), bed.seen());
    for q in all {
        let (ours, looked) = bed.ours(kind, q, &mut a);
        told.answers += 1;
        told.looked += looked as u64;
        if ours.to_bits() != bed.as_doc(kind, q, &mut b).to_bits() {
            told.differ += 1;
        }
    }
    let mut b = bed.seen();
    medians(
        5, spend, all.len(),
        [
            &mut || all.iter().for_each(|q| used(bed.ours(kind, q, &mut a))),
            &mut || all.iter().for_each(|q| used(bed.as_shipped(kind, q, &mut b))),
        ],
    )
}

fn built(bed: &Bed, spend: f64) -> Times {
    let surface = shipped::surface(&bed.mesh);
    let (mut room, kept) = (Room::new(bed), std::cell::RefCell::new(None));
    let [ours, as_shipped, _] = medians(
        5, spend, 1,
        [
            &mut || used(room.build(bed)),
            &mut || *kept.borrow_mut() = shipped::Grid::new(&surface, bed.floor, bed.r).ok(),
            // freed outside of camlib's time
            &mut || *kept.borrow_mut() = None,
        ],
    );
    [ours, as_shipped]
}

/// A stepover of the radius; levels, rows and runs of the plan beside it.
fn planned(bed: &Bed) -> (Times, [u32; 3]) {
    let surface = shipped::surface(&bed.mesh);
    let (low, high) = bed.reach();
    let parameters = [1e-3, 1e-3, bed.r, 0., bed.floor, high[2] + 1., high[2] - low[2] + 10.];
    let mut room = Room::new(bed);
    let (refusal, counts) = room.build_and_plan(bed, &parameters);
    assert!(refusal == 0, "the plan is refused with {refusal}");
    let times = medians(
        5, 1e8, 1,
        [
            &mut || used(room.build_and_plan(bed, &parameters)),
            &mut || used(shipped::plan(&surface, bed.floor, bed.r, &parameters, 0, 100).refusal),
        ],
    );
    (times, counts)
}

/// What was asked beside camlib with document 01's numbers, and how many triangles were looked at.
#[derive(Default)]
struct Told {
    answers: u64,
    differ: u64,
    looked: u64,
}

/// Whether a name has one of the words that fit any of these names; all are wanted where no word fits.
fn chosen(name: &str, names: &[String], words: &[String]) -> bool {
    let fit: Vec<&String> = words.iter().filter(|w| names.iter().any(|n| n.contains(w.as_str()))).collect();
    fit.is_empty() || fit.iter().any(|w| name.contains(w.as_str()))
}

/// `bench parts [WORD..] [--ns] [--lines]`: words choose questions and parts by their names; --ns adds the nanoseconds, --lines prints a line a cell.
pub fn run(words: &[String]) {
    let (options, words): (Vec<String>, Vec<String>) = words.iter().cloned().partition(|w| w.starts_with("--"));
    let names: Vec<String> = ROWS.iter().map(|r| r.0.to_string()).collect();
    let rows: Vec<&(&str, What)> =
        ROWS.iter().filter(|r| chosen(r.0, &names, &words) && !r.1.doors().iter().any(|d| MISSING.contains(d))).collect();
    let mut columns = vec![];
    for n in SIZES {
        for (part, make) in SOLIDS {
            columns.extend(RADII.map(|r| (n, r, *make, format!("{part} {n} r {r}"))));
        }
    }
    let names: Vec<String> = columns.iter().map(|c| c.3.clone()).collect();
    columns.retain(|c| chosen(&c.3, &names, &words));
    let lines = options.iter().any(|o| o == "--lines");
    let mut told = Told::default();
    for n in SIZES {
        let of: Vec<_> = columns.iter().filter(|c| c.0 == n).collect();
        let cells: Vec<Vec<Times>> = of.iter().map(|(n, r, make, name)| column(&bed(make(*n), *r), name, &rows, lines, &mut told)).collect();
        if !lines && !cells.is_empty() {
            let heads: Vec<String> = of.iter().map(|c| c.3.replace(&format!(" {n}"), "")).collect();
            println!();
            table(&format!("{n} triangles: ours / camlib as shipped"), &heads, &rows, &cells, true, &|t| format!("{:.2}", t[0] / t[1]));
            if options.iter().any(|o| o == "--ns") {
                println!();
                table(&format!("{n} triangles: ours and camlib as shipped, µs"), &heads, &rows, &cells, false, &|t| {
                    format!("{:.2} {:.2}", t[0] / 1e3, t[1] / 1e3)
                });
            }
        }
    }
    println!();
    println!("{} answers over these parts beside camlib with document 01's numbers, {} differ", told.answers, told.differ);
}

/// All rows over one part and one radius.
fn column(bed: &Bed, name: &str, rows: &[&(&str, What)], lines: bool, told: &mut Told) -> Vec<Times> {
    let mut plan = String::new();
    let mut cells = vec![];
    for (row, what) in rows.iter().copied() {
        let times = match what {
            What::Build => built(bed, 1e8),
            What::Plan => {
                let (times, [levels, rows, runs]) = planned(bed);
                plan = format!(", levels, rows and runs of its plan {levels}, {rows}, {runs}");
                times
            }
            _ => {
                let (kind, all) = questions(bed, *what, &over(bed));
                asked(bed, kind, &all, 1e8, told)
            }
        };
        if lines {
            println!("{}", line(&format!("{row}, {name}"), times[0], times[1], None));
        }
        cells.push(times);
    }
    if !lines {
        println!("{name}: {} triangles{plan}", bed.mesh.len() / 9);
    }
    cells
}

/// Questions down, parts across; with the middle and the greatest ratio of a row at its end.
fn table(title: &str, heads: &[String], rows: &[&(&str, What)], cells: &[Vec<Times>], ends: bool, shown: &dyn Fn(&Times) -> String) {
    let last = if ends { " middle | most |" } else { "" };
    println!("| {title} | {} |{last}", heads.join(" | "));
    println!("|---|{}{}", "---|".repeat(heads.len()), if ends { "---|---|" } else { "" });
    for (k, (name, _)) in rows.iter().enumerate() {
        let row: Vec<Times> = cells.iter().map(|column| column[k]).collect();
        let mut ratios: Vec<f64> = row.iter().map(|t| t[0] / t[1]).collect();
        ratios.sort_by(f64::total_cmp);
        let last = if ends { format!(" {:.2} | {:.2} |", ratios[ratios.len() / 2], ratios[ratios.len() - 1]) } else { String::new() };
        println!("| {name} | {} |{last}", row.iter().map(shown).collect::<Vec<_>>().join(" | "));
    }
}

/// Ends at the same places of a die, far enough from its rim that all that is looked at belongs to it; which of the copies is left to chance.
fn copy_of(count: usize) -> impl Fn(&mut Rng) -> Ends {
    use solids::TILE;
    move |rng| {
        let place = ends(rng, [4.2, 4.2], [TILE[0] - 4.2, TILE[1] - 4.2]);
        let copy = [rng.unit(), rng.unit()].map(|u| (u * count as f64).floor());
        place.map(|p| [0, 1].map(|i| p[i] + copy[i] * TILE[i]))
    }
}

/// `bench growth`: the same questions over meshes of 1,024 to 65,536 triangles, once over copies of one die side by side, asked at the same places of
/// copies taken at random, once over one surface whose triangles get smaller. The cutter's radius is 2.
pub fn growth() {
    let mut told = Told::default();
    let finer = |k: usize| solids::waves(32 * k, 16 * k, [102.4, 51.2]);
    for (title, mesh) in [("copies of a die", solids::tiles as fn(usize) -> Vec<f64>), ("one surface, finer", finer)] {
        println!();
        println!("| {title} | triangles | looked at | ours, ns a question | ours, ns a triangle looked at | camlib as shipped, ns a triangle looked at |");
        println!("|---|---|---|---|---|---|");
        let beds = [1, 2, 4, 8].map(|k| (k, bed(mesh(k), 2.)));
        for (name, what) in ROWS.iter().filter(|r| !r.1.doors().iter().any(|d| MISSING.contains(d)) && r.1 != What::Plan) {
            for (k, bed) in &beds {
                let n = bed.mesh.len() / 9;
                let (times, looked) = if *what == What::Build {
                    (built(bed, 1e8), n as f64)
                } else {
                    let places: &dyn Fn(&mut Rng) -> Ends = if title.starts_with("copies") { &copy_of(*k) } else { &over(bed) };
                    let (kind, all) = questions(bed, *what, places);
                    let before = told.looked;
                    let times = asked(bed, kind, &all, 1e8, &mut told);
                    (times, (told.looked - before) as f64 / all.len() as f64)
                };
                println!("| {name} | {n} | {looked:.1} | {:.0} | {:.1} | {:.1} |", times[0], times[0] / looked, times[1] / looked);
            }
        }
    }
    println!();
    println!("{} answers beside camlib with document 01's numbers, {} differ", told.answers, told.differ);
}

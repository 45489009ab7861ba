//! The Rust beside the planner: `run` compares, `fuzz` compares damaged calls only, `bench` times, `shipped` counts where camlib as shipped differs,
//! `singles` reads every f32.
//!
//!     compare run  [--cases N] [--seed S] [--part NAME] [--case 'LINE']
//!     compare fuzz [--cases N] [--seed S] [--part NAME]
//!     compare bench [WORD..]
//!     compare bench parts [WORD..] [--ns] [--lines]
//!     compare bench growth
//!     compare bench micrometres
//!     compare shipped [--cases N] [--seed S]
//!     compare singles

mod bed;
mod bench;
mod bench_parts;
mod bench_um;
mod build;
mod case;
mod checked;
mod copies;
mod damage;
mod distance;
mod doors;
mod halves;
mod inputs;
mod job;
mod join;
mod model;
mod moves;
mod numbers;
mod parts;
mod paths;
mod plan;
mod questions;
mod raised;
mod rng;
mod sheet;
mod shipped;
mod solids;
mod stl;
mod touched;
mod triangle;
mod um;
mod writer;
include!(concat!(env!("OUT"), "/missing.rs"));

use case::Case;
use parts::{PARTS, Part, Tally};
use rng::Rng;
use std::time::Instant;

struct Wanted {
    cases: u64,
    seed: u64,
    part: Option<String>,
    case: Option<String>,
    damage: bool,
}

fn main() {
    let mut args = std::env::args().skip(1);
    let what = args.next().unwrap_or_default();
    if what == "bench" {
        return bench::run();
    }
    if what == "singles" {
        return stl::singles();
    }
    if what == "shipped" {
        return shipped::run();
    }
    if what != "run" && what != "fuzz" {
        eprintln!("compare run|fuzz|bench|shipped|singles [--cases N] [--seed S] [--part NAME] [--case 'LINE']");
        std::process::exit(2);
    }
    let mut wanted = Wanted { cases: 10_000, seed: 1, part: None, case: None, damage: what == "fuzz" };
    while let Some(word) = args.next() {
        let value = args.next().unwrap_or_else(|| panic!("{word} needs a value"));
        match word.as_str() {
            "--cases" => wanted.cases = value.replace('_', "").parse().expect("a number of cases"),
            "--seed" => wanted.seed = value.parse().expect("a seed"),
            "--part" => wanted.part = Some(value),
            "--case" => wanted.case = Some(value),
            _ => panic!("{word} is not known"),
        }
    }
    let names: Vec<&'static str> = PARTS.iter().map(|p| p.name).collect();
    if let Some(line) = &wanted.case {
        let case = Case::read(line, &names).expect("a case as a run prints it");
        let part = PARTS.iter().find(|p| p.name == case.part).unwrap();
        match (part.compare)(&case, &mut Tally::default()) {
            Ok(()) => println!("{}: no difference", part.name),
            Err(why) => {
                println!("{}: {why}", part.name);
                std::process::exit(1);
            }
        }
        return;
    }
    if let Some(name) = &wanted.part {
        assert!(names.contains(&name.as_str()), "the parts are {names:?}");
    }
    let (mut answers, mut differ, mut passed, mut failed) = (0, 0, 0, 0);
    for part in PARTS.iter().filter(|p| wanted.part.as_ref().is_none_or(|w| w == p.name)) {
        if let Some(door) = part.doors.iter().find(|d| MISSING.contains(d)) {
            println!("{:15} mandrikelo_{door} is not there: not compared", part.name);
            continue;
        }
        let (tally, differences) = compared(part, &wanted);
        answers += tally.answers;
        differ += differences;
        if differences == 0 { passed += 1 } else { failed += 1 }
    }
    let what = if wanted.damage { "damaged calls" } else { "calls" };
    println!("{what}, seed {}: {answers} answers compared, {differ} differ: {passed} passed, {failed} failed", wanted.seed);
    if differ != 0 {
        std::process::exit(1);
    }
}

/// Runs one part, and says what it compared. A part ends at its first difference.
fn compared(part: &Part, wanted: &Wanted) -> (Tally, u64) {
    let units = match wanted.part {
        Some(_) => wanted.cases,
        None => wanted.cases * part.share / 10_000,
    };
    let begun = Instant::now();
    let mut tally = Tally::default();
    let mut differences = 0;
    for i in 0.. {
        if tally.units >= units {
            break;
        }
        let mut rng = Rng::new(wanted.seed, part.name, i);
        let damage = wanted.damage || rng.one_in(6);
        let case = (part.make)(&mut rng, i, damage);
        if let Err(why) = (part.compare)(&case, &mut tally) {
            differences += 1;
            println!("{}: {why}", part.name);
            let mut why = why;
            let small = case::shrunk(&case, part.widths, &mut |c| match (part.compare)(c, &mut Tally::default()) {
                Err(e) => {
                    why = e;
                    true
                }
                Ok(()) => false,
            });
            let _ = (part.compare)(&small, &mut Tally::default()).map_err(|e| why = e);
            println!("smallest found: {why}");
            println!("compare/run --case '{}'", small.line());
            break;
        }
    }
    let told: Vec<String> = tally.told.iter().map(|(what, n)| format!("{n} {what}")).collect();
    let spent = begun.elapsed().as_secs_f64();
    println!("{:15} {} {}, {spent:.1} s: {}", part.name, tally.units, part.unit, told.join(", "));
    (tally, differences)
}

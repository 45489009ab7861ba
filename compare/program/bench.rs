//! The first table: nanoseconds a call and how many times the Rust's as shipped. Ours, camlib as shipped and camlib with document 01's
//! numbers take the same inputs in the same process, in turn, round after round; a cell is the median of the rounds. The others stand in
//! bench_parts.rs and bench_um.rs.

use crate::MISSING;
use crate::ask;
use crate::bed::{Asked, Bed, Kind, Room, medians, now};
use crate::bench_parts;
use crate::bench_um;
use crate::checked;
use crate::doors::raw;
use crate::inputs;
use crate::rng::Rng;
use crate::solids::plate;
use crate::stl;
use oracle_doc::flat::door as doc;
use oracle_doc::numbers::Numbers;
use oracle_shipped::flat::door as shipped;
use std::hint::black_box;

pub fn used<T>(answer: T) {
    black_box(answer);
}

/// Whether a row was asked for: `bench WORD..` times the rows whose name has one of the words, `bench` alone all of them.
fn wanted(name: &str) -> bool {
    let words: Vec<String> = std::env::args().skip(2).collect();
    words.is_empty() || words.iter().any(|w| name.contains(w.as_str()))
}

/// `bench`, `bench WORD..` for rows of the first table, `bench parts ..`, `bench growth` and `bench micrometres` for the others.
pub fn run() {
    let words: Vec<String> = std::env::args().skip(2).collect();
    match words.first().map(String::as_str) {
        Some("parts") => bench_parts::run(&words[1..]),
        Some("growth") => bench_parts::growth(),
        Some("micrometres") => bench_um::run(),
        Some(_) => plates(),
        None => {
            plates();
            bench_parts::run(&[]);
            bench_parts::growth();
            bench_um::run();
        }
    }
}

/// One row: each closure makes `calls` calls. Rounds go on until `rounds` are done and a quarter of a second is spent.
fn row(name: &str, doors: &[&str], rounds: usize, calls: usize, each: [&mut dyn FnMut(); 3]) {
    if doors.iter().any(|d| MISSING.contains(d)) || !wanted(name) {
        return;
    }
    let [ours, as_shipped, doc] = medians(rounds, 2.5e8, calls, each);
    println!("{}", line(name, ours, as_shipped, Some(doc)));
}

/// A line of the table; `compare/turns` reads it.
pub fn line(name: &str, ours: f64, as_shipped: f64, doc: Option<f64>) -> String {
    let shown = |ns: f64| if ns < 1e4 { format!("{ns:.1}") } else { format!("{ns:.0}") };
    let (ns, ratio) = doc.map_or(("-".into(), "-".into()), |doc| (shown(doc), format!("{:.2}", ours / doc)));
    format!("| {name} | {} | {} | {ns} | {:.2} | {ratio} |", shown(ours), shown(as_shipped), ours / as_shipped)
}

const FLOOR: f64 = -1.;
const RADIUS: f64 = 3.;

/// A plate and its index.
fn bed(mesh: Vec<f64>) -> Bed {
    Bed::new(mesh, FLOOR, RADIUS)
}

/// One kind of question, asked again and again.
fn asked(name: &str, bed: &Bed, kind: Kind, rounds: usize, questions: &[Asked]) {
    let (mut a, mut b, mut c) = (bed.seen(), bed.seen(), bed.seen());
    row(
        name, &[kind.door()], rounds, questions.len(),
        [
            &mut || questions.iter().for_each(|q| used(bed.ours(kind, q, &mut a))),
            &mut || questions.iter().for_each(|q| used(bed.as_shipped(kind, q, &mut b))),
            &mut || questions.iter().for_each(|q| used(bed.as_doc(kind, q, &mut c))),
        ],
    );
}

fn plates() {
    println!("Medians of interleaved rounds, by the thread's processor clock. Lent tables are not cleared before a call; marks and stamp carry on from call to call.");
    println!("The height questions' results go to arrays on the stack. camlib's own allocation is in its times, its freeing is not.");
    println!();
    println!("| what | ours, ns | camlib as shipped, ns | camlib with document 01's numbers, ns | ours / shipped | ours / document 01's |");
    println!("|---|---|---|---|---|---|");
    numbers();
    contacts();
    readers();
    let bed = bed(plate(100, 20));
    build(&bed);
    rooms_and_check(&bed);
    heights(&bed);
    tools(&bed);
    moves(&bed);
    plans();
    crate::writer::bench(now, wanted);
}

fn numbers() {
    let mut rng = Rng::new(1, "bench", 0);
    let xs: Vec<f64> = (0..4096).map(|_| 10f64.powf(rng.between(-6., 6.))).collect();
    let ys: Vec<f64> = (0..4096).map(|_| rng.between(-100., 100.)).collect();
    row(
        "root", &["root"], 400, 4096,
        [
            &mut || xs.iter().for_each(|x| used(unsafe { raw::mandrikelo_root(*x) })),
            &mut || xs.iter().for_each(|x| used(x.sqrt())),
            &mut || xs.iter().for_each(|x| used(x.sqrt())),
        ],
    );
    row(
        "hypot", &["hypot"], 400, 4096,
        [
            &mut || xs.iter().zip(&ys).for_each(|(x, y)| used(unsafe { raw::mandrikelo_hypot(*x, *y) })),
            &mut || xs.iter().zip(&ys).for_each(|(x, y)| used(x.hypot(*y))),
            &mut || xs.iter().zip(&ys).for_each(|(x, y)| used(x.hypot_of(*y))),
        ],
    );
    row(
        "round down", &["round_down"], 400, 4096,
        [
            &mut || ys.iter().for_each(|x| used(unsafe { raw::mandrikelo_round_down(*x) })),
            &mut || ys.iter().for_each(|x| used(x.floor())),
            &mut || ys.iter().for_each(|x| used(x.floor())),
        ],
    );
}

/// Triangles and tools that mostly meet.
fn contacts() {
    let mut rng = Rng::new(2, "bench", 0);
    let n = 2048;
    let f = inputs::Family::Ordinary;
    let triangles: Vec<[f64; 9]> = (0..n).map(|_| inputs::triangle(&mut rng, f)).collect();
    let radii: Vec<f64> = (0..n).map(|_| rng.between(0.5, 4.)).collect();
    let points: Vec<[f64; 2]> = (0..n).map(|i| inputs::point_near(&mut rng, f, &triangles[i], radii[i])).collect();
    let ends: Vec<[f64; 2]> = (0..n).map(|i| inputs::point_near(&mut rng, f, &triangles[i], radii[i])).collect();
    let theirs: Vec<_> = triangles.iter().map(shipped::Triangle::new).collect();
    let docs: Vec<_> = triangles.iter().map(doc::Triangle::new).collect();
    for (name, ends) in [("capsule, a point", &points), ("capsule, a line", &ends)] {
        row(
            name, &["max_in_capsule"], 100, n,
            [
                &mut || {
                    for i in 0..n {
                        let (p, q, mut z, mut on) = (points[i], ends[i], 0., [0; 2]);
                        let t = triangles[i].as_ptr();
                        black_box(unsafe { raw::mandrikelo_max_in_capsule(t, p[0], p[1], q[0], q[1], radii[i], 1e-11, &mut z, on.as_mut_ptr()) });
                        black_box(z);
                    }
                },
                &mut || (0..n).for_each(|i| used(theirs[i].max_in_capsule(points[i], ends[i], radii[i], 1e-11))),
                &mut || (0..n).for_each(|i| used(docs[i].max_in_capsule(points[i], ends[i], radii[i], 1e-11))),
            ],
        );
    }
    let low = f64::NEG_INFINITY;
    row(
        "bull-nose contact", &["bull_contact"], 20, n,
        [
            &mut || {
                for i in 0..n {
                    let (p, r, mut z, mut on) = (points[i], radii[i], 0., [0; 2]);
                    let t = triangles[i].as_ptr();
                    black_box(unsafe { raw::mandrikelo_bull_contact(t, p[0], p[1], r, r / 2., low, &mut z, on.as_mut_ptr()) });
                    black_box(z);
                }
            },
            &mut || (0..n).for_each(|i| used(theirs[i].bull_contact(points[i], radii[i], radii[i] / 2., low))),
            &mut || (0..n).for_each(|i| used(docs[i].bull_contact(points[i], radii[i], radii[i] / 2., low))),
        ],
    );
    let sections: Vec<[f64; 4]> = radii.iter().map(|r| [0., r / 2., *r, 1.]).collect();
    row(
        "section contact", &["section_contact"], 20, n,
        [
            &mut || {
                for i in 0..n {
                    let (p, mut z, mut on) = (points[i], 0., [0; 2]);
                    let t = triangles[i].as_ptr();
                    black_box(unsafe { raw::mandrikelo_section_contact(t, p[0], p[1], sections[i].as_ptr(), &mut z, on.as_mut_ptr()) });
                    black_box(z);
                }
            },
            &mut || (0..n).for_each(|i| used(theirs[i].section_contact(points[i], sections[i]))),
            &mut || (0..n).for_each(|i| used(docs[i].section_contact(points[i], sections[i]))),
        ],
    );
}

/// camlib reads no files: both columns are a plain Rust reader with the same tests.
fn readers() {
    for n in [1_000, 65_536] {
        let bytes = stl::sample(n);
        let (mut ours, mut rust, mut again) = (vec![0.; 9 * n], vec![0.; 9 * n], vec![0.; 9 * n]);
        let mut count = [0];
        row(
            &format!("read_stl, {n} triangles, {} bytes", bytes.len()), &["read_stl"], 40, 1,
            [
                &mut || used(unsafe { stl::mandrikelo_read_stl(bytes.as_ptr(), bytes.len(), ours.as_mut_ptr(), ours.len(), count.as_mut_ptr()) }),
                &mut || used(stl::plain(black_box(&bytes), &mut rust)),
                &mut || used(stl::plain(black_box(&bytes), &mut again)),
            ],
        );
    }
}

fn build(bed: &Bed) {
    let (as_shipped, as_doc) = (shipped::surface(&bed.mesh), doc::surface(&bed.mesh));
    let mut room = Room::new(bed);
    let (mut kept, mut kept_doc) = (None, None);
    row(
        "build, 20,040 triangles", &["build"], 40, 1,
        [
            &mut || used(room.build(bed)),
            // What the round before built is freed by the next assignment; that is the price of keeping it out of this one.
            &mut || {
                std::mem::forget(kept.take());
                kept = shipped::Grid::new(&as_shipped, FLOOR, RADIUS).ok();
            },
            &mut || {
                std::mem::forget(kept_doc.take());
                kept_doc = doc::Grid::new(&as_doc, FLOOR, RADIUS).ok();
            },
        ],
    );
}

/// The rooms and the check of an index, beside a rebuild, which is what camlib's program would have to do.
fn rooms_and_check(bed: &Bed) {
    let (as_shipped, as_doc) = (shipped::surface(&bed.mesh), doc::surface(&bed.mesh));
    let (h, mut rooms) = (&bed.handed, [0; 2]);
    let rebuilt = &mut || std::mem::forget(black_box(shipped::Grid::new(&as_shipped, FLOOR, RADIUS)));
    let rebuilt_doc = &mut || std::mem::forget(black_box(doc::Grid::new(&as_doc, FLOOR, RADIUS)));
    let ask = &mut || used(unsafe { checked::mandrikelo_rooms(bed.mesh.as_ptr(), bed.mesh.len(), FLOOR, RADIUS, rooms.as_mut_ptr()) });
    row("rooms, 20,040 triangles", &["rooms"], 40, 1, [ask, rebuilt, rebuilt_doc]);
    let check = &mut || used(checked::check(&bed.mesh, h));
    row("check of an index, 20,040 triangles", &["check_index"], 40, 1, [check, rebuilt, rebuilt_doc]);
}

/// Questions over the plate at one height, from random points to ends near them.
fn lines(stream: u64, n: usize) -> impl Fn(f64) -> Vec<Asked> {
    let mut rng = Rng::new(stream, "bench", 0);
    let points: Vec<[f64; 2]> = (0..n).map(|_| [rng.between(0., 100.), rng.between(0., 100.)]).collect();
    let ends: Vec<[f64; 2]> = points.iter().map(|p| [p[0] + rng.between(-5., 5.), p[1] + rng.between(-5., 5.)]).collect();
    move |z| points.iter().zip(&ends).map(|(p, q)| Asked([p[0], p[1], z], [q[0], q[1], z])).collect()
}

fn heights(bed: &Bed) {
    let along = lines(3, 1000)(0.);
    let points: Vec<Asked> = along.iter().map(|q| Asked(q.0, q.0)).collect();
    asked("height at a point", bed, Kind::Height, 40, &points);
    asked("height along a line", bed, Kind::Height, 40, &along);
}

fn tools(bed: &Bed) {
    let over = lines(4, 200);
    asked("max_bull", bed, Kind::Bull, 20, &over(0.));
    asked("max_sections, three", bed, Kind::Sections, 10, &over(0.));
    // Just over the plate: blocked by a boss, or clear after a look at all of them; and high over it, where no triangle counts.
    asked("bull_chord_clear, low", bed, Kind::BullChord, 8, &over(1.25));
    asked("bull_chord_clear, high", bed, Kind::BullChord, 8, &over(3.));
    asked("sections_chord_clear, low", bed, Kind::SectionsChord, 6, &over(1.25)[..50]);
    asked("sections_chord_clear, high", bed, Kind::SectionsChord, 6, &over(3.)[..50]);
}

/// A list of 10,000 moves that all pass, looked over in one call, beside the same questions one by one.
fn moves(bed: &Bed) {
    if MISSING.contains(&"look_over") || !wanted("look over") {
        return;
    }
    let mut rng = Rng::new(3, "moves", 0);
    let mut at = [50., 50., 2.];
    let start = at;
    let legs: Vec<(u8, [f64; 3])> = (0..10_000)
        .map(|t| {
            for k in 0..2 {
                at[k] = (at[k] + rng.between(-5., 5.)).clamp(0., 100.);
            }
            (t as u8 % 2, at)
        })
        .collect();
    let bytes = crate::paths::file(start, &legs);
    let table = [0., RADIUS, RADIUS, 0.];
    let (mut marks, mut stamp) = (vec![0u32; bed.mesh.len() / 9], 0);
    let mut times = [vec![], vec![]];
    for round in 0..12 {
        let begun = now();
        let mut lent = crate::doors::Lent::new(&marks);
        let (k, finding) = crate::paths::look_over(&bytes, &bed.mesh, &bed.handed, &mut lent, &table, 1e-3);
        assert!(k == 0 && finding.holds(&[1, 0, 0]), "look over: {k} {:?}", finding.get());
        let between = now();
        let mut a = start;
        for (kind, b) in &legs {
            if *kind == 0 {
                let counts = ask!(
                    bed, mandrikelo_sections_chord_clear, marks, stamp, a[0], a[1], a[2], b[0], b[1], b[2], 0., table.as_ptr(), table.len()
                );
                stamp = counts[2];
                assert!(counts[0] == 1);
            } else {
                let (mut z, mut on) = (0., [0u32; 3]);
                stamp = ask!(bed, mandrikelo_max_height, marks, stamp, a[0], a[1], b[0], b[1], RADIUS, &mut z; on.as_mut_ptr())[1];
                assert!(z <= a[2] + 1e-3);
            }
            a = *b;
        }
        if round > 0 {
            times[0].push((between - begun) / 1e4);
            times[1].push((now() - between) / 1e4);
        }
    }
    let [ours, one_by_one] = times.map(|mut t| {
        t.sort_by(f64::total_cmp);
        t[t.len() / 2]
    });
    println!();
    println!("| what | a list, ns a move | one by one, ns a move | list / one by one |");
    println!("|---|---|---|---|");
    println!("| look over 10,000 moves on the plate | {ours:.1} | {one_by_one:.1} | {:.2} |", ours / one_by_one);
    println!();
}

/// Plans over plates of several sizes, so that the growth with triangles, rows and samples shows.
fn plans() {
    for (side, stepover) in [(20, 3.), (20, 1.5), (40, 3.), (80, 3.)] {
        let bed = bed(plate(side, 4));
        let (as_shipped, as_doc) = (shipped::surface(&bed.mesh), doc::surface(&bed.mesh));
        let parameters = [1e-3, 1e-3, stepover, 0., FLOOR, 2., 10.];
        let mut room = Room::new(&bed);
        let name = format!("build and plan, {} triangles, stepover {stepover}", bed.mesh.len() / 9);
        row(
            &name, &["plan"], 5, 1,
            [
                &mut || used(room.build_and_plan(&bed, &parameters)),
                &mut || used(shipped::plan(&as_shipped, FLOOR, RADIUS, &parameters, 0, 100).refusal),
                &mut || used(doc::plan(&as_doc, FLOOR, RADIUS, &parameters, 0, 100).refusal),
            ],
        );
    }
}

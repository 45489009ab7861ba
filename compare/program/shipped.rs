//! What the nearest hypot changes: camlib as shipped, with libm's, beside camlib with document 01's numbers, on generated parts. compare/moved links the
//! same program a second time, with document 01's hypot of before request 6 in the place of the one as shipped.
//!
//!     compare shipped [--cases N] [--seed S]
//!
//! A case is a plate with bosses, pockets and ribs, turned by some angle, with 100 questions of each kind, one plan, and 240 contacts of each cutter with
//! triangles of ordinary sizes. Nothing is asserted: the two may differ, and docs/DIFFERENCES.md says how often.

use crate::inputs;
use crate::rng::Rng;
use oracle_doc::flat::door as doc;
use oracle_shipped::flat::door as shipped;

const QUESTIONS: usize = 100;
const CONTACTS: usize = 240;

/// How many there were, in how many a bit differs, in how many by more than 1e-9 mm, how many only one of the two has, and the largest difference.
#[derive(Default)]
struct Heights {
    asked: u64,
    differ: u64,
    far: u64,
    only: u64,
    most: f64,
    first: Option<String>,
}

impl Heights {
    fn add(&mut self, a: f64, b: f64, question: &dyn Fn() -> String) {
        self.asked += 1;
        if a.to_bits() != b.to_bits() {
            self.differ += 1;
            self.most = self.most.max((a - b).abs());
            if (a - b).abs() > 1e-9 {
                self.far += 1;
                self.first.get_or_insert_with(|| format!("{a} and {b} at {}", question()));
            }
        }
    }
    fn contact(&mut self, a: Option<f64>, b: Option<f64>, question: &dyn Fn() -> String) {
        match (a, b) {
            (Some(a), Some(b)) => self.add(a, b, question),
            (a, b) => {
                self.asked += 1;
                self.only += (a != b) as u64;
            }
        }
    }
}

/// Contacts with one triangle each.
fn contacts(rng: &mut Rng, counts: &mut [Heights; 3]) {
    let f = inputs::Family::Ordinary;
    for _ in 0..CONTACTS {
        let t = inputs::triangle(rng, f);
        let r = rng.between(0.5, 4.);
        let (p, q) = (inputs::point_near(rng, f, &t, r), inputs::point_near(rng, f, &t, r));
        let (a, b) = (doc::Triangle::new(&t), shipped::Triangle::new(&t));
        let (rc, section) = (inputs::corner(rng, r), [0., r / 2., r, 1.]);
        let told = || format!("{t:?} {p:?} {q:?} {r} {rc}");
        counts[0].contact(a.max_in_capsule(p, q, r, 1e-11), b.max_in_capsule(p, q, r, 1e-11), &told);
        let low = f64::NEG_INFINITY;
        counts[1].contact(a.bull_contact(p, r, rc, low), b.bull_contact(p, r, rc, low), &told);
        counts[2].contact(a.section_contact(p, section), b.section_contact(p, section), &told);
    }
}

#[derive(Default)]
struct Verdicts {
    asked: u64,
    clear: u64,
    differ: u64,
    first: Option<String>,
}

impl Verdicts {
    fn add(&mut self, a: bool, b: bool, chord: &dyn Fn() -> String) {
        self.asked += 1;
        self.clear += a as u64;
        if a != b {
            self.differ += 1;
            self.first.get_or_insert_with(chord);
        }
    }
}

/// Plans: with another refusal or other numbers of levels, rows or runs; with the same ones and other bits.
#[derive(Default)]
struct Plans {
    asked: u64,
    accepted: u64,
    otherwise: u64,
    bits: u64,
    runs: u64,
    first: Option<u64>,
}

/// The part turned about the vertical, so that its edges lie along no axis.
fn turned(mesh: &mut [f64], angle: f64) {
    let (s, c) = angle.sin_cos();
    for v in mesh.chunks_exact_mut(3) {
        (v[0], v[1]) = (c * v[0] - s * v[1], s * v[0] + c * v[1]);
    }
}

pub fn run() {
    let (mut cases, mut seed) = (1_000, 1);
    let mut words = std::env::args().skip(2);
    while let (Some(word), Some(value)) = (words.next(), words.next()) {
        match word.as_str() {
            "--cases" => cases = value.replace('_', "").parse().expect("a number of cases"),
            "--seed" => seed = value.parse().expect("a seed"),
            _ => panic!("{word} is not known"),
        }
    }
    let (mut swept, mut bull, mut tool) = (Heights::default(), Heights::default(), Heights::default());
    let mut single = [Heights::default(), Heights::default(), Heights::default()];
    let (mut bull_chords, mut tool_chords, mut plans) = (Verdicts::default(), Verdicts::default(), Plans::default());
    for i in 0..cases {
        let mut rng = Rng::new(seed, "shipped", i);
        let mut mesh = inputs::plate(&mut rng, 60);
        if rng.one_in(2) {
            let angle = rng.between(0., 6.);
            turned(&mut mesh, angle);
        }
        let z = || mesh.chunks_exact(3).map(|v| v[2]);
        let (lowest, highest) = (z().fold(f64::INFINITY, f64::min), z().fold(f64::NEG_INFINITY, f64::max));
        let r = rng.between(0.2, 2.);
        let floor = lowest - 1.;
        let a = doc::Grid::new(&doc::surface(&mesh), floor, r).expect("an index");
        let b = shipped::Grid::new(&shipped::surface(&mesh), floor, r).expect("an index");
        let m = a.measures();
        let measures = [m[0], m[1], m[2], m[3], m[4], r];
        let sections = own_tool(&mut rng);
        let (tool_a, tool_b) = (doc::Tool::new(&sections), shipped::Tool::new(&sections));
        let (mut seen, mut stamp) = (vec![0; mesh.len() / 9], 0);
        let (mut seen_b, mut stamp_b) = (seen.clone(), 0);
        for _ in 0..QUESTIONS {
            let p = inputs::point(&mut rng, &mesh, &measures, r);
            let q = if rng.one_in(2) { p } else { inputs::point(&mut rng, &mesh, &measures, r) };
            let rc = inputs::corner(&mut rng, r);
            let tip = |rng: &mut Rng| rng.between(floor + 0.5, highest + 1.);
            let (from, to) = ([p[0], p[1], tip(&mut rng)], [q[0], q[1], tip(&mut rng)]);
            let told = || format!("case {i}: {p:?} to {q:?}, r {r}, rc {rc}");
            swept.add(a.max_height(p, q, r, &mut seen, &mut stamp), b.max_height(p, q, r, &mut seen_b, &mut stamp_b), &told);
            bull.add(a.max_bull(p, r, rc, &mut seen, &mut stamp), b.max_bull(p, r, rc, &mut seen_b, &mut stamp_b), &told);
            tool.add(a.max_sections(p, &tool_a, &mut seen, &mut stamp), b.max_sections(p, &tool_b, &mut seen_b, &mut stamp_b), &told);
            bull_chords.add(
                a.bull_chord_clear(from, to, r, rc, 0., &mut seen, &mut stamp),
                b.bull_chord_clear(from, to, r, rc, 0., &mut seen_b, &mut stamp_b),
                &|| format!("case {i}: {from:?} to {to:?}, r {r}, rc {rc}"),
            );
            tool_chords.add(
                a.sections_chord_clear(from, to, &tool_a, 0., &mut seen, &mut stamp),
                b.sections_chord_clear(from, to, &tool_b, 0., &mut seen_b, &mut stamp_b),
                &|| format!("case {i}: {from:?} to {to:?}, sections {sections:?}"),
            );
        }
        let stepover = r * rng.pick(&[2., 1., 0.75, 1.25, 0.5]);
        let parameters = [1e-3, rng.pick(&[1e-3, 0.01, 0.1]), stepover, rng.pick(&[0., 0.1]), floor - 1., highest + 1., 1e3];
        planned(&mut plans, i, &mesh, floor, r, &parameters, rng.below(2) as u32);
        contacts(&mut rng, &mut single);
    }
    println!("seed {seed}, {cases} parts");
    let [one, two, three] = &single;
    for (name, h) in [
        ("swept-disk contacts", one), ("bull-nose contacts", two), ("section contacts", three), ("swept-disk heights", &swept),
        ("bull-nose heights", &bull), ("section heights", &tool),
    ] {
        let (most, first) = (h.most, h.first.as_deref().unwrap_or(""));
        println!(
            "{name}: {} asked, {} with other bits, {} of them by more than 1e-9 mm, the largest difference {most:e} mm, {} that only one has {first}",
            h.asked, h.differ, h.far, h.only
        );
    }
    for (name, v) in [("bull-nose chords", &bull_chords), ("section chords", &tool_chords)] {
        println!("{name}: {} asked, {} clear, {} with another verdict {}", v.asked, v.clear, v.differ, v.first.as_deref().unwrap_or(""));
    }
    println!(
        "plans: {} asked, {} accepted with {} runs, {} with another refusal or other numbers of levels, rows or runs, {} with other bits only; first at {:?}",
        plans.asked, plans.accepted, plans.runs, plans.otherwise, plans.bits, plans.first
    );
}

/// One to four sections of a size that suits the parts.
fn own_tool(rng: &mut Rng) -> Vec<f64> {
    let n = 1 + rng.below(4);
    let mut z = 0.;
    let mut out = vec![];
    for _ in 0..n {
        let r1 = rng.between(0.2, 2.);
        out.extend([z, rng.pick(&[0., r1, r1 / 2.]), r1, rng.pick(&[0., 1., 0.5, 2.])]);
        z += rng.between(0.1, 2.);
    }
    out
}

fn planned(plans: &mut Plans, i: u64, mesh: &[f64], floor: f64, r: f64, parameters: &[f64; 7], axis: u32) {
    let a = doc::plan(&doc::surface(mesh), floor, r, parameters, axis, 2_000);
    let b = shipped::plan(&shipped::surface(mesh), floor, r, parameters, axis, 2_000);
    plans.asked += 1;
    plans.accepted += (a.refusal == 0) as u64;
    plans.runs += a.runs.len() as u64 / 5;
    let bits = |x: &[f64]| x.iter().map(|v| v.to_bits()).collect::<Vec<_>>();
    let numbers = (a.refusal, a.levels.len(), a.rows, a.runs.len());
    if numbers != (b.refusal, b.levels.len(), b.rows, b.runs.len()) {
        plans.otherwise += 1;
        plans.first.get_or_insert(i);
    } else if (bits(&a.levels), bits(&a.runs), bits(&a.lengths)) != (bits(&b.levels), bits(&b.runs), bits(&b.lengths)) {
        plans.bits += 1;
    }
}

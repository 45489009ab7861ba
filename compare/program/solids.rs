//! Parts that look like real ones, made by rule, so that they are the same in every run; millimetres, about 100 by 70 in plan.

use crate::rng::Rng;
use std::f64::consts::{PI, TAU};

type Point = [f64; 3];

/// Each part by its name, and what makes it of about so many triangles.
pub const SOLIDS: &[(&str, fn(usize) -> Vec<f64>)] = &[
    ("plate", |n| plate((n as f64 / 2.).sqrt() as usize, n / 1000)),
    ("sculpted", sculpted),
    ("sphere in torus", |n| fitted(n, balls)),
    ("casting", |n| fitted(n, casting)),
    ("housing", |n| fitted(n, housing)),
];

const LONG: f64 = 100.;
const WIDE: f64 = 70.;

/// Squares of side 1, two triangles each, `side` to an axis; every so often a square lies higher, with walls around it.
pub fn plate(side: usize, walls: usize) -> Vec<f64> {
    let mut rng = Rng::new(7, "plate", side as u64);
    let mut mesh = vec![];
    for i in 0..side {
        for j in 0..side {
            let (x, y, z) = (i as f64, j as f64, if rng.one_in(40) { 1.5 } else { 1. });
            mesh.extend([x, y, z, x + 1., y, z, x + 1., y + 1., z, x, y, z, x + 1., y + 1., z, x, y + 1., z]);
        }
    }
    for _ in 0..walls {
        let (x, y) = (rng.below(side as u64) as f64, rng.below(side as u64) as f64);
        mesh.extend([x, y, 1., x + 1., y, 1., x + 1., y, 1.5, x, y, 1., x, y + 1., 1., x, y + 1., 1.5]);
    }
    mesh
}

/// How finely a part is divided: a number of steps, times this.
#[derive(Clone, Copy)]
struct Finer(f64);

impl Finer {
    fn of(self, steps: f64) -> usize {
        (steps * self.0).round() as usize
    }
}

/// The coarsest division of a part that has n triangles.
fn fitted(n: usize, part: fn(Finer) -> Vec<f64>) -> Vec<f64> {
    let mut fine = Finer(0.9);
    loop {
        let mesh = part(fine);
        if mesh.len() >= 9 * n {
            return mesh;
        }
        fine.0 *= 1.01;
    }
}

/// Two triangles for each quad between neighbouring lines of points; one whose corners coincide is left out.
fn skin(mesh: &mut Vec<f64>, lines: &[Vec<Point>]) {
    for pair in lines.windows(2) {
        for k in 1..pair[0].len() {
            let (a, b, c, d) = (pair[0][k - 1], pair[0][k], pair[1][k], pair[1][k - 1]);
            for t in [[a, b, c], [a, c, d]] {
                if t[0] != t[1] && t[1] != t[2] && t[2] != t[0] {
                    mesh.extend(t.concat());
                }
            }
        }
    }
}

/// A profile of distances and heights turned about an upright axis.
fn lathe(mesh: &mut Vec<f64>, axis: [f64; 2], profile: &[[f64; 2]], around: usize) {
    let ring = |[r, z]: &[f64; 2]| -> Vec<Point> {
        (0..=around)
            .map(|k| {
                let (s, c) = (TAU * (k % around) as f64 / around as f64).sin_cos();
                [axis[0] + r * c, axis[1] + r * s, *z]
            })
            .collect()
    };
    skin(mesh, &profile.iter().map(ring).collect::<Vec<_>>());
}

/// An arc in a profile: centre, radius, from one angle to another in so many steps.
fn arc(centre: [f64; 2], r: f64, from: f64, to: f64, steps: usize) -> impl Iterator<Item = [f64; 2]> {
    (0..=steps).map(move |k| {
        let (s, c) = (from + (to - from) * k as f64 / steps as f64).sin_cos();
        [centre[0] + r * c, centre[1] + r * s]
    })
}

/// A level rectangle of two triangles.
fn sheet(mesh: &mut Vec<f64>, [x, y]: [f64; 2], [to_x, to_y]: [f64; 2], z: f64) {
    skin(mesh, &[vec![[x, y, z], [to_x, y, z]], vec![[x, to_y, z], [to_x, to_y, z]]]);
}

/// Waves of several lengths over corners that lie on no lattice, with level pads where they are highest and lowest: a die.
pub fn sculpted(n: usize) -> Vec<f64> {
    let across = (n as f64 / 2. * WIDE / LONG).sqrt().round() as usize;
    let along = n / 2 / across;
    waves(along, across, [LONG, WIDE])
}

/// The same over any rectangle, in so many quads along and across.
pub fn waves(along: usize, across: usize, size: [f64; 2]) -> Vec<f64> {
    let mut rng = Rng::new(7, "sculpted", along as u64);
    let step = [size[0] / along as f64, size[1] / across as f64];
    let height = |x: f64, y: f64| {
        let z = 12. + 6. * (x / 13. + 0.3).sin() * (y / 11.).cos() + 3. * ((x + 2. * y) / 9.).sin() + 0.8 * (x / 2.3 - y / 3.1).sin();
        z.clamp(5., 19.)
    };
    let mut lines = vec![];
    for j in 0..=across {
        let mut line = vec![];
        for i in 0..=along {
            // The rim stays straight.
            let mut off = |k: usize, most: usize| if k == 0 || k == most { 0. } else { rng.between(-0.3, 0.3) };
            let (x, y) = ((i as f64 + off(i, along)) * step[0], (j as f64 + off(j, across)) * step[1]);
            line.push([x, y, height(x, y)]);
        }
        lines.push(line);
    }
    let mut mesh = vec![];
    skin(&mut mesh, &lines);
    mesh
}

/// Copies of one die of 1,024 triangles, 25.6 by 12.8 mm, so many to each direction.
pub fn tiles(count: usize) -> Vec<f64> {
    let tile = waves(32, 16, TILE);
    let mut mesh = vec![];
    for k in 0..count * count {
        let at = [TILE[0] * (k % count) as f64, TILE[1] * (k / count) as f64, 0.];
        mesh.extend(tile.iter().enumerate().map(|(i, x)| x + at[i % 3]));
    }
    mesh
}

pub const TILE: [f64; 2] = [25.6, 12.8];

/// A sphere inside a torus, both sunk a little into a level sheet of two large triangles.
fn balls(fine: Finer) -> Vec<f64> {
    let of = |steps| fine.of(steps);
    let (mut mesh, axis) = (vec![], [LONG / 2., WIDE / 2.]);
    sheet(&mut mesh, [0., 0.], [LONG, WIDE], 0.);
    let tube: Vec<_> = arc([26., 5.], 7., 0., TAU, of(12.)).collect();
    lathe(&mut mesh, axis, &tube, of(50.));
    let half: Vec<_> = arc([0., 10.], 14., -PI / 2., PI / 2., of(14.)).map(|[r, z]| [if r < 1e-9 { 0. } else { r }, z]).collect();
    lathe(&mut mesh, axis, &half, of(30.));
    mesh
}

/// Half a rib from its foot up: fillet, drafted flank, rounded edge; distances from the rib's middle.
fn rib(top: f64, steps: [usize; 2]) -> Vec<[f64; 2]> {
    const BASE: f64 = 6.;
    let draft = 0.05f64;
    let mut side: Vec<_> = arc([8., BASE + 4.], 4., -PI / 2., -PI + draft, steps[0]).collect();
    let [foot, z] = side[side.len() - 1];
    let x = foot - (top - 1.5 - z) * draft.tan();
    side.extend(arc([x - 1.5 * draft.cos(), top - 1.5 - 1.5 * draft.sin()], 1.5, draft, PI / 2., steps[1]));
    side
}

/// Five ribs with fillets over a base, two of them falling off along their length, with two bored bosses between them: long thin triangles along the
/// ribs, upright ends, one sheet of two triangles under it all.
fn casting(fine: Finer) -> Vec<f64> {
    let of = |steps| fine.of(steps);
    let mut mesh = vec![];
    let rows = of(7.);
    let lines: Vec<Vec<Point>> = (0..=rows)
        .map(|j| {
            let y = WIDE * j as f64 / rows as f64;
            let mut line = vec![[0., y, 6.]];
            for k in 0..5 {
                let (middle, fall) = (10. + 20. * k as f64, if k % 2 == 1 { 0.08 } else { 0. });
                let half = rib([22., 20., 26., 18., 22.][k] - fall * y, [of(4.), of(2.)]);
                line.extend(half.iter().map(|[x, z]| [middle - x, y, *z]));
                line.extend(half.iter().rev().map(|[x, z]| [middle + x, y, *z]));
            }
            line.push([LONG, y, 6.]);
            line
        })
        .collect();
    skin(&mut mesh, &lines);
    for line in [&lines[0], &lines[rows]] {
        let under = line.iter().map(|[x, y, _]| [*x, *y, 0.]).collect();
        skin(&mut mesh, &[line.clone(), under]);
    }
    for y in [18., 50.] {
        let mut boss: Vec<_> = arc([4.2, 7.5], 1.5, -PI / 2., -PI, of(2.)).collect();
        boss.extend(arc([2.2, 14.5], 0.5, 0., PI / 2., of(2.)));
        boss.extend([[1., 15.], [1., 7.], [0., 7.]]);
        lathe(&mut mesh, [20., y], &boss, of(15.));
    }
    sheet(&mut mesh, [0., 0.], [LONG, WIDE], 0.);
    mesh
}

/// A rectangle with round corners, inset by so much: points of each corner and of the straight stretches between.
fn outline(inset: f64, z: f64, corner: usize, straight: usize) -> Vec<Point> {
    let (a, b, r) = (LONG / 2. - inset, WIDE / 2. - inset, 10. - inset);
    let mut line: Vec<Point> = vec![];
    for k in 0..4 {
        let (x, y) = ([1., -1., -1., 1.][k] * (a - r), [1., 1., -1., -1.][k] * (b - r));
        let turn = k as f64 * PI / 2.;
        let next: Vec<Point> = arc([x, y], r, turn, turn + PI / 2., corner).map(|[x, y]| [x + LONG / 2., y + WIDE / 2., z]).collect();
        between(&mut line, next[0], straight);
        line.extend(next);
    }
    let first = line[0];
    between(&mut line, first, straight);
    line.push(first);
    line
}

/// The places between the line's last point and the next one, both left out.
fn between(line: &mut Vec<Point>, to: Point, steps: usize) {
    let Some(from) = line.last().copied() else { return };
    for k in 1..steps {
        let t = k as f64 / steps as f64;
        line.push([from[0] + t * (to[0] - from[0]), from[1] + t * (to[1] - from[1]), from[2]]);
    }
}

/// Walls of 2 mm around a floor, a rounded rim, a fillet inside, four bored bosses and a thin wall across.
fn housing(fine: Finer) -> Vec<f64> {
    let of = |steps| fine.of(steps);
    let mut mesh = vec![];
    let ring = |inset: f64, z: f64| outline(inset, z, of(5.), of(4.));
    let mut rings: Vec<Vec<Point>> = (0..of(5.)).map(|k| ring(0., 29.5 * k as f64 / of(5.) as f64)).collect();
    rings.extend(arc([0.5, 29.5], 0.5, PI, PI / 2., of(1.)).map(|[x, z]| ring(x, z)));
    rings.extend(arc([1.5, 29.5], 0.5, PI / 2., 0., of(1.)).map(|[x, z]| ring(x, z)));
    rings.extend((1..of(4.)).map(|k| ring(2. + 0.5 * k as f64 / of(4.) as f64, 29.5 - 23.5 * k as f64 / of(4.) as f64)));
    rings.extend(arc([5.5, 6.], 3., PI, 1.5 * PI, of(3.)).map(|[x, z]| ring(x, z)));
    let edge = rings[rings.len() - 1].clone();
    let steps = of(4.);
    rings.extend((1..=steps).map(|k| {
        let t = 1. - k as f64 / steps as f64;
        edge.iter().map(|[x, y, z]| [LONG / 2. + t * (x - LONG / 2.), WIDE / 2. + t * (y - WIDE / 2.), *z]).collect()
    }));
    skin(&mut mesh, &rings);
    for (x, y, top) in [(14., 14., 12.), (86., 14., 12.), (14., 56., 20.), (86., 56., 20.)] {
        let mut boss = vec![[4.2, 3.], [4.1, (3. + top) / 2.], [4., top - 0.5]];
        boss.extend(arc([3.5, top - 0.5], 0.5, 0., PI / 2., of(1.)));
        boss.extend([[1.6, top], [1.6, (4. + top) / 2.], [1.6, 4.], [0., 4.]]);
        lathe(&mut mesh, [x, y], &boss, of(8.));
    }
    let wall = [[49., 3.], [49.3, 17.], [49.5, 17.2], [50.5, 17.2], [50.7, 17.], [51., 3.]];
    let lines: Vec<Vec<Point>> =
        (0..=of(6.)).map(|j| wall.iter().map(|[x, z]| [*x, 4. + 62. * j as f64 / of(6.) as f64, *z]).collect()).collect();
    skin(&mut mesh, &lines);
    sheet(&mut mesh, [2., 2.], [LONG - 2., WIDE - 2.], 0.);
    mesh
}

//! The picture of a plan, seen from above.
//!
//! The part in grey, the higher the lighter, with the edges that can be seen where faces meet at an angle; the swept width of the runs
//! lightly, the runs in their level's colour with an arrowhead at the end that is reached last; a ring where a piece was dropped. Colours
//! go by z, from the lowest level to the highest, with a scale. The picture's size is bounded on both sides, its bytes by the part's.
use crate::planned::Planned;
use crate::words::{many, rounded, thousands};
use mandrikelo::{Kind, Move};
use std::collections::HashMap;
use std::fmt::Write;

const WIDE: f64 = 900.0;
const TALL: f64 = 900.0;
const MARGIN: f64 = 52.0;
const TOP: f64 = 78.0;
const LEGEND: f64 = 330.0;
/// The most edges that are drawn: the longest.
const MOST_EDGES: usize = 20_000;
/// The most levels that the legend lists one by one.
const MOST_LISTED: usize = 14;
/// The raster that says what can be seen from above has at most so many cells.
const CELLS: f64 = 400_000.0;
/// The colours of examples/draw, the lowest level first.
const RAMP: [[f64; 3]; 7] = [[40., 58., 156.], [13., 124., 171.], [20., 150., 110.], [107., 153., 28.], [196., 133., 12.], [209., 79., 31.], [150., 15., 60.]];

/// The unit normal of a triangle; zero of one without area.
pub fn normal(t: &[f64; 9]) -> [f64; 3] {
    let (u, v) = ([t[3] - t[0], t[4] - t[1], t[5] - t[2]], [t[6] - t[0], t[7] - t[1], t[8] - t[2]]);
    let n = [u[1] * v[2] - u[2] * v[1], u[2] * v[0] - u[0] * v[2], u[0] * v[1] - u[1] * v[0]];
    let size = (n[0] * n[0] + n[1] * n[1] + n[2] * n[2]).sqrt();
    if size > 0.0 && size.is_finite() { n.map(|x| x / size) } else { [0.0; 3] }
}

/// The colour of a place between 0 and 1 on the ramp.
fn ramp(at: f64) -> String {
    let at = at.clamp(0.0, 1.0) * (RAMP.len() - 1) as f64;
    let k = (at as usize).min(RAMP.len() - 2);
    let part = at - k as f64;
    let [r, g, b] = [0, 1, 2].map(|c| (RAMP[k][c] + part * (RAMP[k + 1][c] - RAMP[k][c])).round() as u8);
    format!("#{r:02x}{g:02x}{b:02x}")
}

/// For each level the colour of its place among those that have runs, the lowest first; none for a level without a run.
pub fn colours(planned: &Planned) -> Vec<Option<String>> {
    let by_level = planned.by_level();
    let many = by_level.iter().filter(|(runs, _)| *runs > 0).count();
    let mut before = 0;
    let place = |before: usize| if many < 2 { 0.2 } else { (many - 1 - before) as f64 / (many - 1) as f64 };
    by_level
        .iter()
        .map(|(runs, _)| {
            (*runs > 0).then(|| {
                before += 1;
                ramp(place(before - 1))
            })
        })
        .collect()
}

/// Where the part lies on the page.
struct Page {
    left: f64,
    high: f64,
    scale: f64,
    wide: f64,
    tall: f64,
}

impl Page {
    fn x(&self, x: f64) -> f64 {
        MARGIN + (x - self.left) * self.scale
    }

    fn y(&self, y: f64) -> f64 {
        TOP + (self.high - y) * self.scale
    }

    fn at(&self, p: [f64; 2]) -> String {
        format!("{},{}", short(self.x(p[0])), short(self.y(p[1])))
    }
}

fn short(x: f64) -> String {
    rounded(x, 1)
}

pub fn escape(text: &str) -> String {
    text.replace('&', "&amp;").replace('<', "&lt;").replace('>', "&gt;").replace('"', "&quot;")
}

pub fn draw(planned: &Planned, moves: Option<&[Move]>, title: &str) -> String {
    let rapids: Vec<&Move> = moves.unwrap_or(&[]).iter().filter(|step| step.kind == Kind::Rapid && step.from[..2] != step.to[..2]).collect();
    let page = page(planned, &rapids);
    let mut out = String::new();
    let wide = MARGIN + page.wide + 40.0 + LEGEND;
    let (legend, legend_tall) = legend(planned, &rapids, MARGIN + page.wide + 40.0);
    let tall = (TOP + page.tall + MARGIN).max(legend_tall + 20.0);
    let _ = write!(
        out,
        "<svg xmlns=\"http://www.w3.org/2000/svg\" viewBox=\"0 0 {0} {1}\" width=\"{0}\" height=\"{1}\" font-family=\"sans-serif\" font-size=\"13\">\n\
         <title>{2}</title><rect width=\"100%\" height=\"100%\" fill=\"white\"/>\n<text x=\"{3}\" y=\"30\" font-size=\"20\">{2}</text>\n",
        short(wide), short(tall), escape(title), MARGIN
    );
    let counts = format!(
        "{}; {}, {}, {} along {}; cut {}, dropped {}",
        many(planned.part.mesh.len() as u64, "triangle"), many(planned.plan.levels.len() as u64, "level"), many(planned.plan.rows.into(), "row"),
        many(planned.runs.len() as u64, "run"), planned.axis(), rounded(planned.plan.cut, 2), rounded(planned.plan.dropped, 3)
    );
    let _ = writeln!(out, "<text x=\"{MARGIN}\" y=\"52\" fill=\"#444\">{counts}</text>");
    part(&mut out, planned, &page);
    axes(&mut out, &page);
    if !rapids.is_empty() {
        let path: String = rapids.iter().map(|step| format!("M{}L{}", page.at([step.from[0], step.from[1]]), page.at([step.to[0], step.to[1]]))).collect();
        let _ = writeln!(out, "<path class=\"rapids\" d=\"{path}\" stroke=\"#222\" stroke-width=\"0.7\" stroke-dasharray=\"5 4\" fill=\"none\"/>");
    }
    runs(&mut out, planned, &page);
    for gap in planned.gaps() {
        let (x, y) = (page.x((gap.a[0] + gap.b[0]) / 2.0), page.y((gap.a[1] + gap.b[1]) / 2.0));
        let (x, y, level) = (short(x), short(y), gap.level);
        let _ = writeln!(out, "<circle class=\"level-{level}\" cx=\"{x}\" cy=\"{y}\" r=\"6\" fill=\"none\" stroke=\"#d00000\" stroke-width=\"2\"/>");
    }
    out + &legend + "</svg>\n"
}

fn page(planned: &Planned, rapids: &[&Move]) -> Page {
    let (mut low, mut high) = ([f64::INFINITY; 2], [f64::NEG_INFINITY; 2]);
    let mut over = |x: f64, y: f64| {
        low = [low[0].min(x), low[1].min(y)];
        high = [high[0].max(x), high[1].max(y)];
    };
    let (a, b) = planned.part.extent();
    over(a[0], a[1]);
    over(b[0], b[1]);
    planned.runs.iter().for_each(|run| [run.a, run.b].iter().for_each(|p| over(p[0], p[1])));
    rapids.iter().for_each(|step| [step.from, step.to].iter().for_each(|p| over(p[0], p[1])));
    let border = planned.part.radius;
    let (left, right, bottom, top) = (low[0] - border, high[0] + border, low[1] - border, high[1] + border);
    let scale = (WIDE / (right - left).max(1e-9)).min(TALL / (top - bottom).max(1e-9));
    // a narrow part still gets a page that a title fits on
    let wide = ((right - left) * scale).max(240.0);
    let left = left - (wide / scale - (right - left)) / 2.0;
    Page { left, high: top, scale, wide, tall: (top - bottom) * scale }
}

/// How high the part stands at each cell of a raster over the page.
struct Raster {
    tops: Vec<f64>,
    columns: usize,
    rows: usize,
    /// Pixels a cell.
    cell: f64,
    /// How much lower than the top a point may lie and still be seen.
    slack: f64,
}

impl Raster {
    fn new(planned: &Planned, page: &Page) -> Raster {
        let cell = (page.wide * page.tall / CELLS).sqrt().max(1.0);
        let (columns, rows) = ((page.wide / cell) as usize + 1, (page.tall / cell) as usize + 1);
        let (low, high) = planned.part.extent();
        let slack = 1e-3 * (high[2] - low[2]).max(1e-9);
        let mut raster = Raster { tops: vec![f64::NEG_INFINITY; columns * rows], columns, rows, cell, slack };
        for t in planned.part.mesh.triangles() {
            let corner = |k: usize| [(page.x(t[3 * k]) - MARGIN) / cell, (page.y(t[3 * k + 1]) - TOP) / cell, t[3 * k + 2]];
            raster.lay([corner(0), corner(1), corner(2)]);
        }
        raster
    }

    /// Lays a triangle over the raster, at the middles of the cells that it covers.
    fn lay(&mut self, [a, b, c]: [[f64; 3]; 3]) {
        let area = (b[0] - a[0]) * (c[1] - a[1]) - (c[0] - a[0]) * (b[1] - a[1]);
        if area.abs() < 1e-9 {
            return;
        }
        let last = |most: f64, many: usize| (most - 0.5).floor().min(many as f64 - 1.0);
        let first = |least: f64| (least - 0.5).ceil().max(0.0);
        let (y0, y1) = (first(a[1].min(b[1]).min(c[1])), last(a[1].max(b[1]).max(c[1]), self.rows));
        let (x0, x1) = (first(a[0].min(b[0]).min(c[0])), last(a[0].max(b[0]).max(c[0]), self.columns));
        let mut y = y0;
        while y <= y1 {
            let mut x = x0;
            while x <= x1 {
                let (px, py) = (x + 0.5, y + 0.5);
                let v = ((px - a[0]) * (c[1] - a[1]) - (c[0] - a[0]) * (py - a[1])) / area;
                let w = ((b[0] - a[0]) * (py - a[1]) - (px - a[0]) * (b[1] - a[1])) / area;
                if v >= -1e-9 && w >= -1e-9 && v + w <= 1.0 + 1e-9 {
                    let top = &mut self.tops[y as usize * self.columns + x as usize];
                    *top = top.max(a[2] + v * (b[2] - a[2]) + w * (c[2] - a[2]));
                }
                x += 1.0;
            }
            y += 1.0;
        }
    }

    /// Whether the part goes on at the same height all around a point.
    fn inside(&self, page: &Page, p: [f64; 3]) -> bool {
        let (x, y) = ((page.x(p[0]) - MARGIN) / self.cell, (page.y(p[1]) - TOP) / self.cell);
        [-2.0, 0.0, 2.0].iter().all(|dx| {
            [-2.0, 0.0, 2.0].iter().all(|dy| {
                let (x, y) = (x + dx, y + dy);
                let on = x >= 0.0 && y >= 0.0 && (x as usize) < self.columns && (y as usize) < self.rows;
                on && (self.tops[y as usize * self.columns + x as usize] - p[2]).abs() <= self.slack
            })
        })
    }

    /// Whether a point can be seen from above: in its cell or in one beside it nothing stands higher.
    fn seen(&self, page: &Page, p: [f64; 3]) -> bool {
        let (x, y) = ((page.x(p[0]) - MARGIN) / self.cell, (page.y(p[1]) - TOP) / self.cell);
        [[0., 0.], [-1., 0.], [1., 0.], [0., -1.], [0., 1.]].iter().any(|d| {
            let (x, y) = (x + d[0], y + d[1]);
            let inside = x >= 0.0 && y >= 0.0 && (x as usize) < self.columns && (y as usize) < self.rows;
            !inside || self.tops[y as usize * self.columns + x as usize] <= p[2] + self.slack
        })
    }
}

/// The part's faces that can be seen, lowest first, as one path for each shade in a row, then the edges.
fn part(out: &mut String, planned: &Planned, page: &Page) {
    let raster = Raster::new(planned, page);
    let (low, high) = planned.part.extent();
    let span = if high[2] > low[2] { high[2] - low[2] } else { 1.0 };
    let seen = |t: &[f64; 9]| {
        // its middle, and three points near its corners
        let at = |u: f64, v: f64, w: f64| raster.seen(page, [0, 1, 2].map(|k| u * t[k] + v * t[3 + k] + w * t[6 + k]));
        normal(t)[2].abs() > 1e-9 && (at(0.34, 0.33, 0.33) || at(0.9, 0.05, 0.05) || at(0.05, 0.9, 0.05) || at(0.05, 0.05, 0.9))
    };
    let mut faces: Vec<(f64, &[f64; 9])> = planned.part.mesh.triangles().filter(|t| seen(t)).map(|t| (t[2].max(t[5]).max(t[8]), t)).collect();
    faces.sort_by(|a, b| a.0.total_cmp(&b.0));
    let shade = |t: &[f64; 9]| 196 + (50.0 * ((t[2] + t[5] + t[8]) / 3.0 - low[2]) / span) as u8;
    out.push_str("<g stroke-width=\"0.6\" stroke-linejoin=\"round\">\n");
    let mut at = 0;
    while at < faces.len() {
        let grey = shade(faces[at].1);
        let same = faces[at..].iter().take_while(|(_, t)| shade(t) == grey).count();
        let _ = write!(out, "<path fill=\"rgb({grey},{grey},{grey})\" stroke=\"rgb({grey},{grey},{grey})\" d=\"");
        for (_, t) in &faces[at..at + same] {
            let _ = write!(out, "M{}L{} {}z", page.at([t[0], t[1]]), page.at([t[3], t[4]]), page.at([t[6], t[7]]));
        }
        out.push_str("\"/>\n");
        at += same;
    }
    out.push_str("</g>\n<path d=\"");
    for (a, b) in edges(planned) {
        edge(out, page, &raster, a, b);
    }
    out.push_str("\" stroke=\"#666\" stroke-width=\"0.8\" fill=\"none\"/>\n");
}

/// Draws the pieces of an edge that can be seen, and at which something ends.
fn edge(out: &mut String, page: &Page, raster: &Raster, a: [f64; 3], b: [f64; 3]) {
    let long = (page.x(b[0]) - page.x(a[0])).hypot(page.y(b[1]) - page.y(a[1]));
    let pieces = (long / 5.0).ceil().clamp(1.0, 200.0) as usize;
    let at = |part: f64| [0, 1, 2].map(|k| a[k] + part * (b[k] - a[k]));
    let mut begun: Option<usize> = None;
    for k in 0..=pieces {
        let middle = at((k as f64 + 0.5) / pieces as f64);
        let seen = k < pieces && raster.seen(page, middle) && !raster.inside(page, middle);
        match (begun, seen) {
            (None, true) => begun = Some(k),
            (Some(from), false) => {
                let [p, q] = [from, k].map(|k| at(k as f64 / pieces as f64)).map(|p| page.at([p[0], p[1]]));
                let _ = write!(out, "M{p}L{q}");
                begun = None;
            }
            _ => {}
        }
    }
}

/// The edges of faces that are not upright, where not just two of them meet at nearly the same slope; the longest, if there are too many.
fn edges(planned: &Planned) -> Vec<([f64; 3], [f64; 3])> {
    type Corner = [u64; 3];
    let mut met: HashMap<(Corner, Corner), Vec<[f64; 3]>> = HashMap::new();
    let key = |t: &[f64; 9], k: usize| [t[3 * k], t[3 * k + 1], t[3 * k + 2]].map(|x| (x + 0.0).to_bits());
    for t in planned.part.mesh.triangles() {
        let n = normal(t);
        if n[2].abs() > 1e-9 {
            let up = n.map(|x| if n[2] < 0.0 { -x } else { x });
            for k in 0..3 {
                let (a, b) = (key(t, k), key(t, (k + 1) % 3));
                met.entry(if a < b { (a, b) } else { (b, a) }).or_default().push(up);
            }
        }
    }
    let sharp = |ns: &[[f64; 3]]| ns.len() != 2 || (0..3).map(|k| ns[0][k] * ns[1][k]).sum::<f64>() < 0.996;
    let mut out: Vec<_> = met.iter().filter(|(_, ns)| sharp(ns)).map(|((a, b), _)| (a.map(f64::from_bits), b.map(f64::from_bits))).collect();
    out.retain(|(a, b)| a[..2] != b[..2]);
    let long = |e: &([f64; 3], [f64; 3])| (e.1[0] - e.0[0]).hypot(e.1[1] - e.0[1]);
    // the same order each time
    let bits = |e: &([f64; 3], [f64; 3])| [e.0, e.1].map(|p| p.map(f64::to_bits));
    out.sort_by(|a, b| long(b).total_cmp(&long(a)).then(bits(a).cmp(&bits(b))));
    out.truncate(MOST_EDGES);
    out
}

/// Ticks of a round length along the left and the lower side, and the origin if it is on the page.
fn axes(out: &mut String, page: &Page) {
    let step = round_length(page.wide.max(page.tall) / page.scale / 8.0);
    let (right, low) = (page.left + page.wide / page.scale, page.high - page.tall / page.scale);
    let bottom = TOP + page.tall;
    let digits = (-step.log10().floor()).max(0.0) as usize;
    out.push_str("<g stroke=\"#888\" fill=\"none\" stroke-width=\"1\">");
    let _ = write!(out, "<rect x=\"{MARGIN}\" y=\"{TOP}\" width=\"{}\" height=\"{}\"/>", short(page.wide), short(page.tall));
    let ticks = |from: f64, to: f64| ((from / step).ceil() as i64..=(to / step).floor() as i64).map(move |k| k as f64 * step);
    for x in ticks(page.left, right) {
        let _ = write!(out, "<path d=\"M{},{}v6\"/>", short(page.x(x)), short(bottom));
    }
    for y in ticks(low, page.high) {
        let _ = write!(out, "<path d=\"M{MARGIN},{}h-6\"/>", short(page.y(y)));
    }
    if page.left <= 0.0 && 0.0 <= right && low <= 0.0 && 0.0 <= page.high {
        let (x, y) = (short(page.x(0.0)), short(page.y(0.0)));
        let _ = write!(out, "<path stroke=\"#000\" d=\"M{x},{y}m-7,0h14m-7,-7v14\"/><circle stroke=\"#000\" cx=\"{x}\" cy=\"{y}\" r=\"4\"/>");
    }
    out.push_str("</g>\n<g fill=\"#666\" font-size=\"11\">");
    for x in ticks(page.left, right) {
        let _ = write!(out, "<text text-anchor=\"middle\" x=\"{}\" y=\"{}\">{}</text>", short(page.x(x)), short(bottom + 18.0), rounded(x, digits));
    }
    for y in ticks(low, page.high) {
        let _ = write!(out, "<text text-anchor=\"end\" x=\"{}\" y=\"{}\">{}</text>", MARGIN - 9.0, short(page.y(y) + 4.0), rounded(y, digits));
    }
    out.push_str("</g>\n");
}

/// The next length up that is 1, 2 or 5 times a power of ten.
fn round_length(least: f64) -> f64 {
    let ten = 10f64.powf(least.log10().floor());
    [1.0, 2.0, 5.0, 10.0].into_iter().map(|k| k * ten).find(|x| *x >= least * 0.999).unwrap_or(10.0 * ten)
}

/// The swept width lightly, then the runs with their arrowheads; a group a level.
fn runs(out: &mut String, planned: &Planned, page: &Page) {
    let colours = colours(planned);
    let width = 2.0 * planned.part.radius * page.scale;
    for (level, colour) in colours.iter().enumerate().rev() {
        let Some(colour) = colour else { continue };
        let own = planned.runs.iter().zip(&planned.level_of).filter(|(_, of)| **of == level).map(|(run, _)| run);
        let (mut line, mut heads) = (String::new(), String::new());
        for run in own {
            let _ = write!(line, "M{}L{}", page.at(run.a), page.at(run.b));
            let (x, y, ux, uy) = (page.x(run.b[0]), page.y(run.b[1]), page.x(run.b[0]) - page.x(run.a[0]), page.y(run.b[1]) - page.y(run.a[1]));
            let size = ux.hypot(uy);
            if size > 2.0 {
                let long = size.min(8.0);
                let (bx, by, nx, ny) = (x - long * ux / size, y - long * uy / size, -0.38 * long * uy / size, 0.38 * long * ux / size);
                let _ = write!(heads, "M{},{}L{},{} {},{}z", short(x), short(y), short(bx + nx), short(by + ny), short(bx - nx), short(by - ny));
            }
        }
        let _ = writeln!(
            out,
            "<g class=\"level-{level}\"><path d=\"{line}\" stroke=\"{colour}\" stroke-width=\"{}\" stroke-opacity=\"0.10\" stroke-linecap=\"round\" \
             fill=\"none\"/>\
             <path d=\"{line}\" stroke=\"{colour}\" stroke-width=\"1.4\" fill=\"none\"/><path d=\"{heads}\" fill=\"{colour}\"/></g>",
            short(width)
        );
    }
}

/// A text of the legend.
fn text(out: &mut String, x: f64, y: f64, words: &str) {
    let _ = writeln!(out, "<text x=\"{}\" y=\"{}\">{}</text>", short(x), short(y), escape(words));
}

/// The levels in the legend, and how far down they go.
fn levels(planned: &Planned, x: f64) -> (String, f64) {
    let (mut out, mut y) = (String::new(), TOP + 4.0);
    let colours = colours(planned);
    let by_level = planned.by_level();
    let line = |k: usize| format!("{}: {}, {}", rounded(planned.plan.levels[k].z, 4), many(by_level[k].0 as u64, "run"), rounded(by_level[k].1, 1));
    let listed: Vec<usize> = (0..colours.len()).filter(|k| colours[*k].is_some()).collect();
    let _ = writeln!(out, "<text x=\"{}\" y=\"{}\" font-weight=\"bold\">Levels (z: runs, cut length)</text>", short(x), short(y));
    if listed.len() <= MOST_LISTED {
        for k in &listed {
            y += 20.0;
            let colour = colours[*k].as_deref().unwrap_or("#000");
            let _ = writeln!(out, "<path d=\"M{},{}h26\" stroke=\"{colour}\" stroke-width=\"4\"/>", short(x), short(y - 4.0));
            text(&mut out, x + 34.0, y, &line(*k));
        }
    } else {
        // a scale: the highest above
        let (tall, steps) = (200.0, 40);
        for k in 0..steps {
            let (at, one, colour) = (y + 10.0 + tall * k as f64 / steps as f64, tall / steps as f64, ramp(1.0 - k as f64 / (steps - 1) as f64));
            let _ = writeln!(out, "<rect x=\"{}\" y=\"{}\" width=\"26\" height=\"{}\" fill=\"{colour}\"/>", short(x), short(at), one + 0.5);
        }
        for k in 0..5 {
            let level = listed[(listed.len() - 1) * k / 4];
            text(&mut out, x + 34.0, y + 14.0 + tall * k as f64 / 4.0, &line(level));
        }
        y += tall + 32.0;
        text(&mut out, x, y, &format!("{} levels with runs, these five among them", thousands(listed.len() as u64)));
    }
    if planned.without_runs().is_some() {
        y += 20.0;
        text(&mut out, x, y, &format!("{} without a run: no place there for the", many((colours.len() - listed.len()) as u64, "level")));
        y += 16.0;
        text(&mut out, x, y, "tool under which nothing is higher");
    }
    (out, y)
}

/// The legend and how far down it goes.
fn legend(planned: &Planned, rapids: &[&Move], x: f64) -> (String, f64) {
    let (mut out, mut y) = levels(planned, x);
    y += 30.0;
    let (from, to, at) = (short(x), short(x + 26.0), short(y - 4.0));
    let _ = writeln!(out, "<path d=\"M{from},{at}h18\" stroke=\"#444\" stroke-width=\"1.4\"/><path d=\"M{to},{at}l-9,-3.5v7z\" fill=\"#444\"/>");
    text(&mut out, x + 34.0, y, "a run, the way it is cut");
    y += 22.0;
    let _ = writeln!(out, "<rect x=\"{}\" y=\"{}\" width=\"26\" height=\"13\" rx=\"6\" fill=\"#1b6ca8\" fill-opacity=\"0.12\"/>", short(x), short(y - 11.0));
    text(&mut out, x + 34.0, y, &format!("what the tool sweeps, radius {}", planned.part.radius));
    if !rapids.is_empty() {
        y += 22.0;
        let length: f64 = rapids.iter().map(|step| (step.to[0] - step.from[0]).hypot(step.to[1] - step.from[1])).sum();
        let _ = writeln!(out, "<path d=\"M{},{}h26\" stroke=\"#222\" stroke-width=\"0.7\" stroke-dasharray=\"5 4\"/>", short(x), short(y - 4.0));
        text(&mut out, x + 34.0, y, &format!("{} across, {}", many(rapids.len() as u64, "rapid"), rounded(length, 1)));
    }
    y += 22.0;
    let gaps = planned.gaps();
    let _ = writeln!(out, "<circle cx=\"{}\" cy=\"{}\" r=\"6\" fill=\"none\" stroke=\"#d00000\" stroke-width=\"2\"/>", short(x + 13.0), short(y - 4.0));
    let marked = rounded(gaps.iter().map(|gap| gap.length()).sum(), 3);
    let told = match (gaps.len(), planned.plan.dropped > 0.0) {
        (_, false) => "a dropped piece: none".into(),
        (many, true) => format!("dropped pieces: {many} marked, {marked} of {}", rounded(planned.plan.dropped, 3)),
    };
    text(&mut out, x + 34.0, y, &told);
    y += 22.0;
    let (low, high) = planned.part.extent();
    for (x, grey) in [(x, 196), (x + 13.0, 246)] {
        let (x, y, fill) = (short(x), short(y - 11.0), format!("rgb({grey},{grey},{grey})"));
        let _ = writeln!(out, "<rect x=\"{x}\" y=\"{y}\" width=\"13\" height=\"13\" fill=\"{fill}\" stroke=\"#ccc\" stroke-width=\"0.5\"/>");
    }
    text(&mut out, x + 34.0, y, &format!("the part from z {} to {}", rounded(low[2], 3), rounded(high[2], 3)));
    y += 30.0;
    let _ = writeln!(out, "<text x=\"{}\" y=\"{}\" font-weight=\"bold\">Asked for</text>", short(x), short(y));
    for (name, value) in planned.named() {
        y += 17.0;
        text(&mut out, x, y, &format!("{name}: {value}"));
    }
    (out, y)
}

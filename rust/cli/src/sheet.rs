//! `mandrikelo sheet`: one page for release, to look at and to print. Nothing outside the page is needed to show it.
use crate::files::Form;
use crate::plan::write;
use crate::planned::{self, Planned};
use crate::svg::{self, escape};
use crate::trouble::Trouble;
use crate::words::{many, rounded, thousands};
use clap::Args;
use std::fmt::Write;
use std::path::PathBuf;

#[derive(Args)]
pub struct Asked {
    #[command(flatten)]
    plan: planned::Asked,
    /// The page to write [default: the part's name with .html in place of its ending]
    #[arg(long, short, value_name = "FILE")]
    out: Option<PathBuf>,
}

/// The most dropped pieces that the page lists.
const MOST_GAPS: usize = 200;

const STYLE: &str = "body{font:15px/1.45 sans-serif;margin:2em auto;max-width:1300px;padding:0 1em;color:#111}\
h1{font-size:1.7em;margin:0 0 .2em}h2{font-size:1.15em;margin:1.6em 0 .4em}table{border-collapse:collapse}\
td,th{padding:.15em .8em .15em 0;text-align:left;vertical-align:top}td.n,th.n{text-align:right;font-variant-numeric:tabular-nums}\
tr+tr td{border-top:1px solid #ddd}code{font-size:.92em;word-break:break-all}.two{display:flex;flex-wrap:wrap;gap:0 4em}\
.swatch{display:inline-block;width:1.6em;height:.7em;margin-right:.5em;border-radius:2px}svg{max-width:100%;height:auto;border:1px solid #ddd}\
.levels{max-height:26em;overflow:auto;display:inline-block;max-width:100%}button{font:inherit;margin-right:.5em}\
.sign td{padding-top:2.2em;border-top:0;border-bottom:1px solid #111;width:16em}.whole{color:#1b5e20;font-weight:bold}\
@media print{*{print-color-adjust:exact;-webkit-print-color-adjust:exact}body{margin:0;max-width:none;font-size:11px}\
button,.screen{display:none}.levels{max-height:none;overflow:visible}.two{flex-wrap:nowrap;gap:0 1.5em}input{width:9px;height:9px;margin:0}\
h2{break-after:avoid;margin-top:1em}svg,tr,li,.sign{break-inside:avoid}}";

const SCRIPT: &str = "function show(k,on){document.querySelectorAll('svg .level-'+k).forEach(function(g){g.style.display=on?'':'none'})}\
document.querySelectorAll('input[data-level]').forEach(function(box){box.addEventListener('change',function(){show(box.dataset.level,box.checked)})});\
function all(on){document.querySelectorAll('input[data-level]').forEach(function(box){box.checked=on;show(box.dataset.level,on)})}";

pub fn run(asked: &Asked) -> Result<(String, u8), Trouble> {
    let planned = planned::plan(&asked.plan)?;
    let path = asked.out.clone().unwrap_or_else(|| asked.plan.part.part.with_extension("html"));
    let page = page(&planned);
    write(&path, page.as_bytes())?;
    let (levels, runs) = (many(planned.plan.levels.len() as u64, "level"), many(planned.runs.len() as u64, "run"));
    Ok((format!("{}: {levels}, {runs}, {} bytes\n", path.display(), thousands(page.len() as u64)), 0))
}

fn rows(pairs: &[(&str, String)]) -> String {
    let lines = pairs.iter().map(|(name, value)| format!("<tr><td>{name}</td><td>{value}</td></tr>"));
    format!("<table>{}</table>\n", lines.collect::<String>())
}

/// What is said of the file.
fn file(planned: &Planned) -> [(&'static str, String); 9] {
    let seen = &planned.part.seen;
    let count = |n: Option<u64>| n.map_or("none, an ASCII file carries no count".into(), thousands);
    let (low, high) = planned.part.extent();
    let size: Vec<String> = (0..3).map(|k| rounded(high[k] - low[k], 3)).collect();
    [
        ("verdict", "<span class=\"whole\">whole</span>".into()),
        ("SHA-256", format!("<code>{}</code>", seen.sha256.as_deref().unwrap_or("-"))),
        ("kind of file", seen.form.map_or("-", Form::name).into()),
        ("bytes", thousands(seen.size)),
        ("triangles declared", count(seen.declared)),
        ("triangles present", count(seen.present)),
        ("edges without a partner", match crate::closed::edges_without_partner(&planned.part.mesh) {
            0 => "none: the part is closed".into(),
            open => format!("{}: the part is not closed", thousands(open)),
        }),
        ("size", size.join(" by ")),
        ("z", format!("{} to {}", rounded(low[2], 3), rounded(high[2], 3))),
    ]
}

fn page(planned: &Planned) -> String {
    let name = escape(&planned.part.name());
    let mut out = format!(
        "<!DOCTYPE html>\n<html lang=\"en\"><head><meta charset=\"utf-8\"><meta name=\"viewport\" content=\"width=device-width\">\n\
         <title>Release sheet: {name}</title>\n<style>{STYLE}</style></head>\n<body>\n<h1>{name}</h1>\n"
    );
    let asked: Vec<(&str, String)> = planned.named().into_iter().map(|(name, value)| (name, escape(&value))).collect();
    let plan = [
        ("levels", thousands(planned.plan.levels.len() as u64)),
        ("rows", thousands(planned.plan.rows.into())),
        ("runs", thousands(planned.runs.len() as u64)),
        ("cut length", rounded(planned.plan.cut, 3)),
        ("dropped length", rounded(planned.plan.dropped, 4)),
    ];
    let _ = write!(
        out,
        "<div class=\"two\"><div><h2>The file</h2>{}</div><div><h2>Asked for</h2>{}</div><div><h2>The plan</h2>{}</div></div>\n",
        rows(&file(planned)), rows(&asked), rows(&plan)
    );
    let _ = write!(out, "<h2>Picture</h2>\n{}", svg::draw(planned, None, &format!("Flat runs of {}", planned.part.name())));
    levels(&mut out, planned);
    dropped(&mut out, planned);
    promises(&mut out, planned);
    out.push_str("<h2>Released</h2>\n<table class=\"sign\"><tr><td>name</td><td>date</td></tr></table>\n");
    let _ = write!(out, "<script>{SCRIPT}</script>\n</body></html>\n");
    out
}

fn levels(out: &mut String, planned: &Planned) {
    let by_level = planned.by_level();
    out.push_str("<h2>Levels with runs</h2>\n<p class=\"screen\"><button onclick=\"all(true)\">show all</button>\
        <button onclick=\"all(false)\">hide all</button></p>\n<div class=\"levels\"><table>\n<tr><th>shown</th><th class=\"n\">z</th>\
        <th class=\"n\">runs at z</th><th class=\"n\">runs</th><th class=\"n\">cut length</th><th>box of its faces</th></tr>\n");
    for (k, colour) in svg::colours(planned).iter().enumerate() {
        let (Some(colour), level) = (colour, &planned.plan.levels[k]) else { continue };
        let [ax, ay, bx, by] = [level.low[0], level.low[1], level.high[0], level.high[1]].map(|x| rounded(x, 3));
        let _ = writeln!(
            out,
            "<tr><td><label><input type=\"checkbox\" checked data-level=\"{k}\"> <span class=\"swatch\" style=\"background:{colour}\"></span></label></td>\
             <td class=\"n\">{}</td><td class=\"n\">{}</td><td class=\"n\">{}</td><td class=\"n\">{}</td><td>{ax}, {ay} to {bx}, {by}</td></tr>",
            rounded(level.z, 4), rounded(level.z + planned.parameters.stock_to_leave, 4), thousands(by_level[k].0 as u64), rounded(by_level[k].1, 3)
        );
    }
    out.push_str("</table></div>\n");
    if let Some(words) = planned.without_runs() {
        let _ = writeln!(out, "<p>{}.</p>", escape(&words));
    }
}

fn dropped(out: &mut String, planned: &Planned) {
    out.push_str("<h2>What was dropped, and where</h2>\n");
    let gaps = planned.gaps();
    let marked: f64 = gaps.iter().map(|gap| gap.length()).sum();
    if planned.plan.dropped == 0.0 {
        out.push_str("<p>Nothing: every sampled stretch was kept whole.</p>\n");
        return;
    }
    let (all, shown) = (rounded(planned.plan.dropped, 4), rounded(marked, 4));
    let place = match gaps.len() {
        _ if shown == all => "All of it lies between two runs of one row, and stands below.".into(),
        0 => "It was dropped at the ends of stretches, where a plan leaves no gap to show it.".into(),
        _ => format!(
            "{shown} of it lies between two runs of one row, and stands below; the rest was dropped at the end of a stretch, where a plan \
             leaves no gap to show it."
        ),
    };
    let _ = writeln!(out, "<p>A length of {all}, because the tool would have gone deeper than the tolerance allows. {place}</p>");
    if gaps.is_empty() {
        return;
    }
    out.push_str("<table><tr><th class=\"n\">z</th><th>from</th><th>to</th><th class=\"n\">length</th></tr>\n");
    for gap in gaps.iter().take(MOST_GAPS) {
        let [ax, ay, bx, by] = [gap.a[0], gap.a[1], gap.b[0], gap.b[1]].map(|x| rounded(x, 4));
        let (z, length) = (rounded(gap.z, 4), rounded(gap.length(), 4));
        let _ = writeln!(out, "<tr><td class=\"n\">{z}</td><td>{ax}, {ay}</td><td>{bx}, {by}</td><td class=\"n\">{length}</td></tr>");
    }
    out.push_str("</table>\n");
    if gaps.len() > MOST_GAPS {
        let _ = writeln!(out, "<p>and {} more.</p>", thousands((gaps.len() - MOST_GAPS) as u64));
    }
}

fn promises(out: &mut String, planned: &Planned) {
    let n = thousands(planned.part.mesh.len() as u64);
    let tolerance = planned.parameters.tolerance;
    out.push_str("<h2>What holds</h2>\n<p>Proved of the planner, for every input:</p>\n<ul>\n");
    match planned.part.seen.form {
        Some(Form::BinaryStl) => {
            let _ = writeln!(
                out,
                "<li>The file has exactly the bytes that its count asks for: a copy that broke off, or one with bytes too many, is refused. All \
                 {n} triangles were read, each number with the value that it has in the file.</li>"
            );
        }
        Some(Form::Job) => {
            let _ = writeln!(
                out,
                "<li>The job has exactly the bytes that its counts ask for: a copy that broke off, or one with bytes too many, is refused. All \
                 {n} triangles were read, to the bit.</li>"
            );
        }
        _ => {}
    }
    let _ = writeln!(
        out,
        "<li>Every triangle stands in the index in each grid cell that it covers, and a swept-disk question looks at each triangle that shares \
         a cell with it exactly once.</li>\n\
         {}<li>Each piece of a run that was kept has, asked again, a swept-disk height of at most its z + {tolerance}, for the radius {}.</li>\n\
         <li>Nothing is lost between the halves: the kept and dropped pieces of each sampled stretch follow each other from its first point to \
         its last, and the dropped length is the sum of the dropped ones. Stretches of a single sample are left out of both.</li>\n\
         <li>No level lies above the stock's top{}.</li>",
        match planned.part.raise {
            0.0 => String::new(),
            raise => format!("<li>The part was raised by {raise} with its index, which is the one that a build of the raised part gives.</li>\n"),
        },
        planned.part.radius,
        if planned.reach_tested { ", and none deeper than the cutting length less 16 tolerances" } else { "" }
    );
    not_proved(out, planned);
}

fn not_proved(out: &mut String, planned: &Planned) {
    out.push_str("</ul>\n<p>Not proved: that the file is the part on the drawing; this program, which opened the file, drew the picture and wrote this page");
    if planned.part.seen.form == Some(Form::AsciiStl) {
        out.push_str("; the reading of an ASCII file, which carries no count");
    }
    if planned.part.scale != 1.0 {
        let _ = write!(out, "; that every coordinate was multiplied by {}", planned.part.scale);
    }
    if !planned.reach_tested {
        out.push_str("; that the tool reaches every level, since no cutting length was given");
    }
    out.push_str("; the shank and the holder, which a plan does not look at.</p>\n");
}

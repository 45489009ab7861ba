//! `mandrikelo tool SHEET`: a tool's sections from a small text.
use crate::points;
use crate::trouble::Trouble;
use crate::words::{many, rounded};
use clap::Args;
use mandrikelo::{Holder, Neck, Section, Shape, Sheet, Tool};
use serde_json::json;
use std::path::{Path, PathBuf};

#[derive(Args)]
pub struct Asked {
    /// The tool's sheet
    #[arg(value_name = "SHEET")]
    sheet: PathBuf,
    /// Print the sections as JSON
    #[arg(long)]
    json: bool,
}

pub const HELP: &str = "A sheet is a text of a word and its value a line; # begins a comment:\n\n  \
shape flat                  flat, ball, bull, drill or chamfer\n  \
diameter 10\n  \
tip-diameter 2              of a chamfer\n  \
tip-height 4                of a chamfer or drill: height over the tip at the full radius\n  \
cutting-length 22\n  \
stickout 40                 where the holder begins\n  \
radius-above 5              just above the cutting length, if that is below the stickout\n  \
neck-length 8               only if there is a neck, above the cutting length\n  \
radius-above-neck 5         just above the neck\n  \
holder 40 60 10 15          low z, high z, low radius, high radius; a line each\n  \
enclose yes                 take a ball or bull end as the flat end around it\n\n\
or, in place of all these, the sections themselves, a line each:\n\n  \
section 0 5 5 0             z0, r0, r1, rise (a slope: height a unit of radius)\n\n\
Example:\n  mandrikelo tool examples/tools/end_mill.tool";

pub fn run(asked: &Asked) -> Result<(String, u8), Trouble> {
    let tool = read(&asked.sheet)?;
    let sections = tool.sections();
    if asked.json {
        let rows: Vec<_> = sections.iter().map(|s| json!({ "z0": s.z0, "r0": s.r0, "r1": s.r1, "rise": s.rise })).collect();
        return Ok((format!("{:#}\n", json!(rows)), 0));
    }
    let mut out = format!("{}, tip upward\n", many(sections.len() as u64, "section"));
    for s in &sections {
        let top = rounded(s.z0 + (s.r1 - s.r0) * s.rise, 4);
        let cone = format!(", then up to z {top} at radius {}: {} a unit of radius", s.r1, rounded(s.rise, 6));
        out += &format!("  from z {}: level out to radius {}{}\n", s.z0, s.r0, if s.r0 == s.r1 { "" } else { &cone });
    }
    Ok((out, 0))
}

/// Reads a sheet and takes its sections.
pub fn read(path: &Path) -> Result<Tool, Trouble> {
    let lines = points::lines(path, |line| {
        let (name, rest) = line.split_once(char::is_whitespace).unwrap_or((line, ""));
        Ok((name.to_ascii_lowercase(), rest.trim().to_string()))
    })?;
    let wrong = |what: String| Trouble::use_of(format!("{}: {what}", path.display()), "mandrikelo tool --help says what stands in a sheet");
    tool_of(&lines).map_err(|what| wrong(what.0)).and_then(|made| made.map_err(|refusal| Trouble::planner(&path.display().to_string(), refusal)))
}

struct Wrong(String);

impl From<String> for Wrong {
    fn from(what: String) -> Wrong {
        Wrong(what)
    }
}

/// A sheet on which nothing stands yet.
const EMPTY: Sheet = Sheet {
    shape: Shape::Beam, enclose: false, diameter: 0., tip_diameter: 0., tip_height: 0., cutting_length: 0., stickout: 0., radius_above: 0.,
    neck: None, holders: Vec::new(),
};

fn tool_of(lines: &[(String, String)]) -> Result<Result<Tool, mandrikelo::Refusal>, Wrong> {
    let (mut sections, mut sheet) = (Vec::new(), EMPTY);
    let (mut neck_length, mut neck_radius, mut seen) = (None, None, Vec::new());
    for (name, rest) in lines {
        if seen.contains(&name) && !matches!(&name[..], "holder" | "section") {
            return Err(Wrong(format!("{name} stands there twice")));
        }
        seen.push(name);
        let one = || points::numbers(rest).and_then(|x| if x.len() == 1 { Ok(x[0]) } else { Err(format!("{name} takes one number")) });
        let four = || points::numbers(rest).and_then(|x| <[f64; 4]>::try_from(x).map_err(|_| format!("{name} takes four numbers")));
        match &name[..] {
            "shape" => sheet.shape = shape(rest)?,
            "enclose" => sheet.enclose = yes(rest)?,
            "diameter" => sheet.diameter = one()?,
            "tip-diameter" => sheet.tip_diameter = one()?,
            "tip-height" => sheet.tip_height = one()?,
            "cutting-length" => sheet.cutting_length = one()?,
            "stickout" => sheet.stickout = one()?,
            "radius-above" => sheet.radius_above = one()?,
            "neck-length" => neck_length = Some(one()?),
            "radius-above-neck" => neck_radius = Some(one()?),
            "holder" => {
                let [low_z, high_z, low_radius, high_radius] = four()?;
                sheet.holders.push(Holder { low_z, high_z, low_radius, high_radius });
            }
            "section" => {
                let [z0, r0, r1, rise] = four()?;
                sections.push(Section { z0, r0, r1, rise });
            }
            _ => return Err(Wrong(format!("{name} is no word of a sheet"))),
        }
    }
    if !sections.is_empty() && sections.len() < lines.len() {
        return Err(Wrong("sections stand there beside other words".into()));
    }
    if !sections.is_empty() {
        let tool = Tool::from_sections(&sections);
        return Ok(tool.accepted().map(|()| tool));
    }
    complete(&sheet, |name| seen.iter().any(|word| *word == name))?;
    sheet.neck = neck_length.map(|length| Neck { length, radius_above: neck_radius.unwrap_or(0.0) });
    Ok(Tool::from_sheet(&sheet))
}

/// Whether a sheet has every word that its shape needs.
fn complete(sheet: &Sheet, has: impl Fn(&str) -> bool) -> Result<(), Wrong> {
    let mut needed = vec!["shape", "diameter", "cutting-length", "stickout"];
    match sheet.shape {
        Shape::Chamfer => needed.extend(["tip-diameter", "tip-height"]),
        Shape::Drill => needed.push("tip-height"),
        _ => {}
    }
    // a shank that nobody wrote down is how a neck gets forgotten
    if sheet.cutting_length < sheet.stickout {
        needed.push("radius-above");
    }
    if has("neck-length") || has("radius-above-neck") {
        needed.extend(["neck-length", "radius-above-neck"]);
    }
    match needed.iter().find(|name| !has(name)) {
        Some(name) => Err(Wrong(format!("{name} is missing"))),
        None => Ok(()),
    }
}

fn shape(word: &str) -> Result<Shape, String> {
    match word {
        "flat" => Ok(Shape::Flat),
        "ball" => Ok(Shape::Ball),
        "bull" => Ok(Shape::Bull),
        "drill" => Ok(Shape::Drill),
        "chamfer" => Ok(Shape::Chamfer),
        "beam" => Ok(Shape::Beam),
        _ => Err(format!("{word} is no shape: flat, ball, bull, drill or chamfer")),
    }
}

fn yes(word: &str) -> Result<bool, String> {
    match word {
        "yes" => Ok(true),
        "no" => Ok(false),
        _ => Err(format!("enclose {word}: yes or no")),
    }
}

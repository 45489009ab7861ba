//! A plan with the part that it is of, and what is worked out from it for people: by level, what was dropped and where.
use crate::part::{self, Part};
use crate::trouble::Trouble;
use crate::words::{many, rounded, thousands};
use clap::{Args, ValueEnum};
use mandrikelo::{Axis, Level, Parameters, Plan, Refusal, Run};
use serde_json::{json, Value};

#[derive(Clone, Copy, ValueEnum)]
pub enum Along {
    X,
    Y,
}

#[derive(Args)]
pub struct Asked {
    #[command(flatten)]
    pub part: part::Asked,
    /// Distance from row to row, over 16 tolerances and at most twice the radius
    #[arg(long, value_name = "S", allow_hyphen_values = true)]
    pub stepover: f64,
    /// Which way the rows run
    #[arg(long, value_enum, default_value = "x")]
    pub axis: Along,
    /// Tolerance, 1e-7 to 0.01
    #[arg(long, value_name = "T", default_value = "0.001", allow_hyphen_values = true)]
    pub tolerance: f64,
    /// How far a face may lie under its level's first one, from the tolerance to 0.1
    #[arg(long, value_name = "T", default_value = "0.01", allow_hyphen_values = true)]
    pub level_tolerance: f64,
    /// Stock to leave on every level
    #[arg(long, value_name = "H", default_value = "0", allow_hyphen_values = true)]
    pub leave: f64,
    /// Bottom of the stock, at most the floor [default: the floor]
    #[arg(long, value_name = "Z", allow_hyphen_values = true)]
    pub stock_bottom: Option<f64>,
    /// Top of the stock [default: the part's highest point]
    #[arg(long, value_name = "Z", allow_hyphen_values = true)]
    pub stock_top: Option<f64>,
    /// The tool's cutting length; without it, whether the tool reaches every level is not tested
    #[arg(long, value_name = "L", allow_hyphen_values = true)]
    pub cutting_length: Option<f64>,
}

/// A part, its plan and what it was asked with.
pub struct Planned {
    pub part: Part,
    pub parameters: Parameters,
    pub reach_tested: bool,
    pub plan: Plan,
    pub runs: Vec<Run>,
    /// For each run its level.
    pub level_of: Vec<usize>,
}

/// A gap between two runs of one row that is too short to hold a sample off the level: a piece that was dropped.
pub struct Gap {
    pub a: [f64; 2],
    pub b: [f64; 2],
    pub z: f64,
    pub level: usize,
}

impl Gap {
    pub fn length(&self) -> f64 {
        (self.b[0] - self.a[0]).hypot(self.b[1] - self.a[1])
    }
}

pub fn plan(asked: &Asked) -> Result<Planned, Trouble> {
    let mut part = part::open(&asked.part)?;
    let top = part.extent().1[2] + part.raise;
    let stock_top = asked.stock_top.unwrap_or(if top > part.floor { top } else { part.floor + 1.0 });
    let parameters = Parameters {
        tolerance: asked.tolerance,
        level_tolerance: asked.level_tolerance,
        stepover: asked.stepover,
        stock_to_leave: asked.leave,
        stock_bottom: asked.stock_bottom.unwrap_or(part.floor),
        stock_top,
        cutting_length: asked.cutting_length.unwrap_or(stock_top - part.floor + 1.0),
        axis: match asked.axis {
            Along::X => Axis::X,
            Along::Y => Axis::Y,
        },
    };
    let plan = part.asked(|index| index.plan(&parameters))?.map_err(|refusal| {
        let what = wrong(&part, &parameters, refusal).map_or(part.name(), |what| format!("{}: {what}", part.name()));
        Trouble::planner(&what, refusal)
    })?;
    let runs: Vec<Run> = plan.runs().collect();
    let level_of = runs.iter().map(|run| level_of(&plan.levels, run.z - parameters.stock_to_leave)).collect();
    Ok(Planned { part, parameters, reach_tested: asked.cutting_length.is_some(), plan, runs, level_of })
}

/// What a refused plan was refused for, as far as it can be told from its numbers: for people, the refusal is the planner's.
fn wrong(part: &Part, p: &Parameters, refusal: Refusal) -> Option<String> {
    let (low, high) = part.extent();
    let rules = [
        ((1e-7..=0.01).contains(&p.tolerance), format!("the tolerance {} is not within 1e-7 to 0.01", p.tolerance)),
        (
            p.tolerance <= p.level_tolerance && p.level_tolerance <= 0.1,
            format!("the level tolerance {} is not within the tolerance, {}, to 0.1", p.level_tolerance, p.tolerance),
        ),
        (p.stepover > 16.0 * p.tolerance, format!("the stepover {} is not over 16 tolerances, {}", p.stepover, 16.0 * p.tolerance)),
        (p.stepover <= 2.0 * part.radius, format!("the stepover {} is not at most twice the radius, {}", p.stepover, 2.0 * part.radius)),
        (p.stock_to_leave >= 0.0, format!("the stock to leave, {}, is under 0", p.stock_to_leave)),
        (p.stock_bottom <= part.floor, format!("the stock's bottom, {}, lies over the floor, {}", p.stock_bottom, part.floor)),
        (p.stock_top > part.floor, format!("the stock's top, {}, is not over the floor, {}", p.stock_top, part.floor)),
    ];
    match refusal {
        Refusal::Parameter => rules.into_iter().find(|(holds, _)| !holds).map(|(_, what)| what),
        Refusal::Reach => {
            let reach = rounded(p.stock_top - p.cutting_length + 16.0 * p.tolerance, 4);
            let (low, high) = (rounded(low[2], 4), rounded(high[2], 4));
            Some(format!("the part reaches from z {low} to {high}, the tool from z {reach} to the stock's top, {}", p.stock_top))
        }
        _ => None,
    }
}

/// The level nearest a height: the runs of a level lie at its z and the stock to leave, rounded once.
fn level_of(levels: &[Level], z: f64) -> usize {
    // from the highest down
    let after = levels.partition_point(|level| level.z > z).min(levels.len().saturating_sub(1));
    let before = after.saturating_sub(1);
    let far = |k: usize| levels.get(k).map_or(f64::INFINITY, |level| (level.z - z).abs());
    if far(before) <= far(after) {
        before
    } else {
        after
    }
}

impl Planned {
    /// For each level its number of runs and their length.
    pub fn by_level(&self) -> Vec<(usize, f64)> {
        let mut out = vec![(0, 0.0); self.plan.levels.len()];
        for (run, level) in self.runs.iter().zip(&self.level_of) {
            out[*level].0 += 1;
            out[*level].1 += run.length();
        }
        out
    }

    /// The dropped pieces that can be told from the runs. Pieces at the end of a stretch leave no gap, so these may be less than all.
    pub fn gaps(&self) -> Vec<Gap> {
        let along = self.parameters.axis as usize;
        let most = 1.5 * self.parameters.stepover.min(self.part.radius) / 4.0;
        let pairs = self.runs.windows(2).zip(&self.level_of);
        pairs
            .filter(|(pair, _)| {
                let gap = (pair[1].a[along] - pair[0].b[along]).abs();
                pair[0].a[1 - along] == pair[1].a[1 - along] && pair[0].z == pair[1].z && gap > 0.0 && gap < most
            })
            .map(|(pair, level)| Gap { a: pair[0].b, b: pair[1].a, z: pair[0].z, level: *level })
            .collect()
    }

    pub fn axis(&self) -> &'static str {
        ["X", "Y"][self.parameters.axis as usize]
    }

    /// The parameters with their names, for people.
    pub fn named(&self) -> Vec<(&'static str, String)> {
        let p = &self.parameters;
        let reach = if self.reach_tested { p.cutting_length.to_string() } else { "not given: reach not tested".into() };
        let mut out = vec![
            ("radius", self.part.radius.to_string()),
            ("floor", self.part.floor.to_string()),
            ("stepover", p.stepover.to_string()),
            ("rows along", self.axis().into()),
            ("tolerance", p.tolerance.to_string()),
            ("level tolerance", p.level_tolerance.to_string()),
            ("stock to leave", p.stock_to_leave.to_string()),
            ("stock bottom", p.stock_bottom.to_string()),
            ("stock top", p.stock_top.to_string()),
            ("cutting length", reach),
            ("scale", self.part.scale.to_string()),
        ];
        if self.part.raise != 0.0 {
            out.push(("raised by", self.part.raise.to_string()));
        }
        out
    }

    pub fn summary(&self) -> String {
        let (seen, (low, high)) = (&self.part.seen, self.part.extent());
        let size: Vec<String> = (0..3).map(|k| rounded(high[k] - low[k], 3)).collect();
        let mut out = format!("{}: whole, {}\n", self.part.name(), many(self.part.mesh.len() as u64, "triangle"));
        out += &format!("SHA-256 {}\n", seen.sha256.as_deref().unwrap_or("-"));
        out += &format!("{}, z from {} to {}\n", size.join(" by "), rounded(low[2], 3), rounded(high[2], 3));
        out += &format!(
            "{}, {}, {} along {}; cut {}, dropped {}\n",
            many(self.plan.levels.len() as u64, "level"),
            many(self.plan.rows.into(), "row"),
            many(self.runs.len() as u64, "run"),
            self.axis(),
            rounded(self.plan.cut, 3),
            rounded(self.plan.dropped, 4),
        );
        let by_level = self.by_level();
        for (level, (runs, length)) in self.plan.levels.iter().zip(&by_level).filter(|(_, (runs, _))| *runs > 0) {
            out += &format!("  level {:>10}: {:>6} runs, {:>12} cut\n", rounded(level.z, 4), thousands(*runs as u64), rounded(*length, 3));
        }
        out += &self.without_runs().map_or(String::new(), |words| format!("  {words}\n"));
        if !self.reach_tested {
            out += "no --cutting-length: whether the tool reaches every level was not tested\n";
        }
        out
    }

    /// The levels without a run in one line, if there are any.
    pub fn without_runs(&self) -> Option<String> {
        let by_level = self.by_level();
        let bare: Vec<f64> = self.plan.levels.iter().zip(&by_level).filter(|(_, (runs, _))| *runs == 0).map(|(level, _)| level.z).collect();
        let (first, last) = (bare.first()?, bare.last()?);
        let place = if bare.len() == 1 { format!("z {}", rounded(*first, 4)) } else { format!("z {} to {}", rounded(*last, 4), rounded(*first, 4)) };
        let radius = self.part.radius;
        let levels = many(bare.len() as u64, "level");
        Some(format!("{levels} without a run ({place}): a tool of radius {radius} finds no place there under which nothing is higher"))
    }

    pub fn json(&self) -> Value {
        let p = &self.parameters;
        let by_level = self.by_level();
        let levels = self.plan.levels.iter().zip(&by_level);
        let level = |(level, (runs, length)): (&Level, &(usize, f64))| {
            json!({ "z": level.z, "low": level.low, "high": level.high, "runs": runs, "cut": length })
        };
        let run = |(run, level): (&Run, &usize)| json!({ "level": level, "a": run.a, "b": run.b, "z": run.z });
        json!({
            "part": {
                "path": crate::words::one_line(&self.part.seen.path), "sha256": self.part.seen.sha256, "size": self.part.seen.size,
                "declared": self.part.seen.declared, "present": self.part.seen.present, "scale": self.part.scale,
                "raise": self.part.raise,
            },
            "parameters": {
                "radius": self.part.radius, "floor": self.part.floor, "stepover": p.stepover, "axis": self.axis(), "tolerance": p.tolerance,
                "level_tolerance": p.level_tolerance, "stock_to_leave": p.stock_to_leave, "stock_bottom": p.stock_bottom,
                "stock_top": p.stock_top, "cutting_length": self.reach_tested.then_some(p.cutting_length),
            },
            "rows": self.plan.rows, "cut": self.plan.cut, "dropped": self.plan.dropped,
            "levels": levels.map(level).collect::<Vec<_>>(),
            "runs": self.runs.iter().zip(&self.level_of).map(run).collect::<Vec<_>>(),
        })
    }

    /// The levels and the runs as two CSV texts. Numbers are written so that they read back to the same bits.
    pub fn csv(&self) -> (String, String) {
        let mut levels = String::from("level,z,low_x,low_y,high_x,high_y,runs,cut\n");
        for (k, (level, (runs, length))) in self.plan.levels.iter().zip(self.by_level()).enumerate() {
            levels += &format!("{k},{},{},{},{},{},{runs},{length}\n", level.z, level.low[0], level.low[1], level.high[0], level.high[1]);
        }
        let mut runs = String::from("run,level,ax,ay,bx,by,z\n");
        for (k, (run, level)) in self.runs.iter().zip(&self.level_of).enumerate() {
            runs += &format!("{k},{level},{},{},{},{},{}\n", run.a[0], run.a[1], run.b[0], run.b[1], run.z);
        }
        (levels, runs)
    }
}

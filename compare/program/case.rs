//! A case: named tables of numbers, as a line of text that reproduces it.

use std::fmt::Write;

#[derive(Clone, Debug, PartialEq)]
pub enum Table {
    Floats(Vec<f64>),
    Words(Vec<u32>),
    Bytes(Vec<u8>),
}

#[derive(Clone, Debug)]
pub struct Case {
    pub part: &'static str,
    pub tables: Vec<(&'static str, Table)>,
}

impl Case {
    pub fn new(part: &'static str) -> Self {
        Case { part, tables: vec![] }
    }
    pub fn floats(mut self, name: &'static str, table: Vec<f64>) -> Self {
        self.tables.push((name, Table::Floats(table)));
        self
    }
    pub fn words(mut self, name: &'static str, table: Vec<u32>) -> Self {
        self.tables.push((name, Table::Words(table)));
        self
    }
    pub fn bytes(mut self, name: &'static str, table: Vec<u8>) -> Self {
        self.tables.push((name, Table::Bytes(table)));
        self
    }
    fn table(&self, name: &str) -> &Table {
        &self.tables.iter().find(|(n, _)| *n == name).unwrap_or_else(|| panic!("{} has no {name}", self.part)).1
    }
    pub fn f(&self, name: &str) -> &[f64] {
        match self.table(name) {
            Table::Floats(t) => t,
            _ => panic!("{name} holds no floats"),
        }
    }
    pub fn u(&self, name: &str) -> &[u32] {
        match self.table(name) {
            Table::Words(t) => t,
            _ => panic!("{name} holds no words"),
        }
    }
    pub fn b(&self, name: &str) -> &[u8] {
        match self.table(name) {
            Table::Bytes(t) => t,
            _ => panic!("{name} holds no bytes"),
        }
    }
    pub fn u_mut(&mut self, name: &str) -> &mut Vec<u32> {
        match &mut self.tables.iter_mut().find(|(n, _)| *n == name).unwrap().1 {
            Table::Words(t) => t,
            _ => panic!("{name} holds no words"),
        }
    }

    /// `part name=f:..` with each float as its decimal value where that gives the same bits, else as `x` and 16 hex digits.
    pub fn line(&self) -> String {
        let mut out = self.part.to_string();
        for (name, table) in &self.tables {
            write!(out, " {name}=").unwrap();
            match table {
                Table::Floats(t) => {
                    out.push_str("f:");
                    out.push_str(&t.iter().map(|x| shown(*x)).collect::<Vec<_>>().join(","));
                }
                Table::Words(t) => {
                    out.push_str("u:");
                    out.push_str(&t.iter().map(|x| x.to_string()).collect::<Vec<_>>().join(","));
                }
                Table::Bytes(t) => {
                    out.push_str("b:");
                    t.iter().for_each(|b| write!(out, "{b:02x}").unwrap());
                }
            }
        }
        out
    }

    /// The case that a line tells.
    pub fn read(line: &str, parts: &[&'static str]) -> Option<Case> {
        let mut words = line.split_whitespace();
        let part = words.next()?;
        let part = *parts.iter().find(|p| **p == part)?;
        let mut case = Case::new(part);
        for word in words {
            let (name, rest) = word.split_once('=')?;
            let name: &'static str = String::from(name).leak();
            let (kind, values) = rest.split_once(':')?;
            let items = || values.split(',').filter(|v| !v.is_empty());
            let table = match kind {
                "f" => Table::Floats(items().map(read_float).collect::<Option<_>>()?),
                "u" => Table::Words(items().map(|v| v.parse().ok()).collect::<Option<_>>()?),
                _ => Table::Bytes(
                    (0..values.len() / 2).map(|i| u8::from_str_radix(&values[2 * i..2 * i + 2], 16).ok()).collect::<Option<_>>()?,
                ),
            };
            case.tables.push((name, table));
        }
        Some(case)
    }
}

pub fn shown(x: f64) -> String {
    let short = format!("{x:?}");
    match short.parse::<f64>() {
        Ok(y) if y.to_bits() == x.to_bits() => short,
        _ => format!("x{:016x}", x.to_bits()),
    }
}

fn read_float(v: &str) -> Option<f64> {
    match v.strip_prefix('x') {
        Some(hex) => u64::from_str_radix(hex, 16).ok().map(f64::from_bits),
        None => v.parse().ok(),
    }
}

/// A smaller case that still differs: entries are left out (whole triangles, questions, sections), then numbers made plain.
pub fn shrunk(case: &Case, widths: &[(&str, usize)], differs: &mut dyn FnMut(&Case) -> bool) -> Case {
    let mut best = case.clone();
    let until = std::time::Instant::now() + std::time::Duration::from_secs(20);
    loop {
        let before = best.line();
        for (name, width) in widths {
            leave_out(&mut best, name, *width, differs, until);
        }
        plain(&mut best, differs, until);
        if best.line() == before || std::time::Instant::now() > until {
            return best;
        }
    }
}

fn leave_out(
    best: &mut Case, name: &str, width: usize, differs: &mut dyn FnMut(&Case) -> bool, until: std::time::Instant,
) {
    let length = |c: &Case| match c.tables.iter().find(|(n, _)| *n == name) {
        Some((_, Table::Floats(t))) => t.len(),
        Some((_, Table::Words(t))) => t.len(),
        Some((_, Table::Bytes(t))) => t.len(),
        None => 0,
    };
    let mut part = (length(best) / width).div_ceil(2).max(1);
    loop {
        let mut at = 0;
        while at * width < length(best) && std::time::Instant::now() < until {
            let mut tried = best.clone();
            for (n, table) in &mut tried.tables {
                if *n == name {
                    match table {
                        Table::Floats(t) => drop(t.drain(at * width..((at + part) * width).min(t.len()))),
                        Table::Words(t) => drop(t.drain(at * width..((at + part) * width).min(t.len()))),
                        Table::Bytes(t) => drop(t.drain(at * width..((at + part) * width).min(t.len()))),
                    }
                }
            }
            // Marks stand beside triangles: one for each.
            if name == "mesh" && tried.tables.iter().any(|(n, _)| *n == "marks") {
                let marks = tried.u_mut("marks");
                if at < marks.len() {
                    marks.drain(at..(at + part).min(marks.len()));
                }
            }
            if differs(&tried) {
                *best = tried;
            } else {
                at += part;
            }
        }
        if part == 1 {
            return;
        }
        part /= 2;
    }
}

fn plain(best: &mut Case, differs: &mut dyn FnMut(&Case) -> bool, until: std::time::Instant) {
    for k in 0..best.tables.len() {
        let count = match &best.tables[k].1 {
            Table::Floats(t) => t.len(),
            Table::Words(t) => t.len(),
            Table::Bytes(_) => 0,
        };
        for i in 0..count {
            if std::time::Instant::now() > until {
                return;
            }
            let mut tried = best.clone();
            match &best.tables[k].1 {
                Table::Floats(t) => {
                    let x = t[i];
                    let cut = |digits: u32| f64::from_bits(x.to_bits() >> digits << digits);
                    for y in [0., 1., -1., x.trunc(), cut(48), cut(40), cut(32), cut(24)] {
                        if y.to_bits() == x.to_bits() {
                            break;
                        }
                        if let Table::Floats(t) = &mut tried.tables[k].1 {
                            t[i] = y;
                        }
                        if differs(&tried) {
                            *best = tried;
                            break;
                        }
                    }
                }
                Table::Words(t) => {
                    for y in [0, 1, t[i] / 2] {
                        if y >= t[i] {
                            break;
                        }
                        if let Table::Words(t) = &mut tried.tables[k].1 {
                            t[i] = y;
                        }
                        if differs(&tried) {
                            *best = tried;
                            break;
                        }
                    }
                }
                Table::Bytes(_) => {}
            }
        }
    }
}

// Answers the cutters' questions of crates/replay_contacts/stdin anew: each line's letter and 15 numbers are read from standard input, and what camlib's own
// functions, with document 01's numbers, answer to them is written behind.
use oracle_doc::flat::door::Triangle;
use std::io::BufRead;
fn bits(x: f64) -> String { format!("{:016x}", if x.is_nan() { 0x7ff8000000000000 } else { x.to_bits() }) }
fn main() {
    for line in std::io::stdin().lock().lines() {
        let line = line.unwrap();
        let words: Vec<&str> = line.split(' ').collect();
        let m: Vec<f64> = words[1..16].iter().map(|w| f64::from_bits(u64::from_str_radix(w, 16).unwrap())).collect();
        let t = Triangle::new(&std::array::from_fn(|k| m[k]));
        let p = [m[9], m[10]];
        let a = match words[0] {
            "n" => t.bull_contact(p, m[11], m[12], m[13]),
            _ => t.section_contact(p, [m[11], m[12], m[13], m[14]]),
        };
        let mut s = words[0].to_string();
        for v in m { s += " "; s += &bits(v); }
        s += match a { None => " 0", _ => " 1" };
        s += " "; s += &bits(a.unwrap_or(0.)); s += " "; s += &bits(t.distance_xy(p));
        println!("{s}");
    }
}

//! Numbers and paths as people and lists read them.
use std::path::Path;

/// 65536 as 65,536.
pub fn thousands(number: u64) -> String {
    let digits = number.to_string();
    let mut out = String::with_capacity(digits.len() + digits.len() / 3);
    for (k, digit) in digits.chars().enumerate() {
        if k > 0 && (digits.len() - k) % 3 == 0 {
            out.push(',');
        }
        out.push(digit);
    }
    out
}

/// `1 triangle`, `2 triangles`.
pub fn many(number: u64, one: &str) -> String {
    format!("{} {one}{}", thousands(number), if number == 1 { "" } else { "s" })
}

/// A number rounded for people: at most so many digits behind the point, no zeros at its end.
pub fn rounded(number: f64, digits: usize) -> String {
    let text = format!("{number:.digits$}");
    let text = if text.contains('.') { text.trim_end_matches('0').trim_end_matches('.') } else { &text };
    if text == "-0" { "0".into() } else { text.into() }
}

/// A path on one line: a backslash, a tab and line ends are written as \\, \t, \n and \r, and what is no UTF-8 as \xHH.
pub fn one_line(path: &Path) -> String {
    let mut out = String::new();
    for chunk in bytes(path).utf8_chunks() {
        for letter in chunk.valid().chars() {
            match letter {
                '\\' => out.push_str("\\\\"),
                '\t' => out.push_str("\\t"),
                '\n' => out.push_str("\\n"),
                '\r' => out.push_str("\\r"),
                _ => out.push(letter),
            }
        }
        for byte in chunk.invalid() {
            out.push_str(&format!("\\x{byte:02x}"));
        }
    }
    out
}

#[cfg(unix)]
fn bytes(path: &Path) -> &[u8] {
    std::os::unix::ffi::OsStrExt::as_bytes(path.as_os_str())
}

#[cfg(not(unix))]
fn bytes(path: &Path) -> &[u8] {
    path.to_str().unwrap_or("?").as_bytes()
}

#[cfg(test)]
mod tests {
    use super::*;

    #[test]
    fn numbers_for_people() {
        assert_eq!([0, 999, 1000, 65536, 1234567].map(thousands), ["0", "999", "1,000", "65,536", "1,234,567"]);
        assert_eq!([many(1, "edge"), many(1200, "edge")], ["1 edge", "1,200 edges"]);
        assert_eq!([rounded(2.5, 3), rounded(-0.0001, 3), rounded(100.0, 0), rounded(1e-9, 2)], ["2.5", "0", "100", "0"]);
        assert_eq!(one_line(Path::new("a b\\c\nd")), "a b\\\\c\\nd");
    }
}

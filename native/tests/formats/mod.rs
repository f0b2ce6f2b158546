//! Worked bytes in the tables of docs/FORMATS.md.

const FORMATS: &str = include_str!("../../../docs/FORMATS.md");

/// The bytes of some hexadecimal digits.
pub fn bytes_of(digits: &str) -> Vec<u8> {
    (0..digits.len() / 2).map(|at| u8::from_str_radix(&digits[2 * at..2 * at + 2], 16).unwrap()).collect()
}

/// A section of the formats, up to the next heading.
pub fn section(heading: &str) -> &'static str {
    let (_, rest) = FORMATS.split_once(&format!("\n{heading}\n")).unwrap();
    rest.split("\n#").next().unwrap()
}

/// The cells of the rows of the tables in a text.
pub fn rows(text: &str) -> impl Iterator<Item = Vec<&str>> {
    text.lines().filter(|line| line.starts_with("| ")).map(|line| line.split('|').map(str::trim).collect())
}

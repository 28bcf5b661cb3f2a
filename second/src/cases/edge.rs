//! Cases at the edges of a request, with the reply that it asks for, written by hand.

use crate::calls::Reply;
use crate::stream::Case;

#[derive(Clone)]
pub struct Edge {
    pub what: &'static str,
    pub case: Case,
    pub reply: Reply,
}

pub fn edge(what: &'static str, case: Case, reply: Reply) -> Edge {
    Edge { what, case, reply }
}

/// A node line with another mark, which is its third pair.
pub fn with_mark(line: &str, mark: &str) -> String {
    [&line[..4], mark, &line[6..]].concat()
}

/// Node lines, all with another mark.
pub fn all_with_mark<S: AsRef<str>>(lines: &[S], mark: &str) -> Vec<String> {
    lines.iter().map(|line| with_mark(line.as_ref(), mark)).collect()
}

/// A node at depth 0.
pub fn line_of_kind(kind: &str, mark: &str, number: u16, bytes: &[u8]) -> String {
    format!("00{kind}{mark}{number:04X}{}", counted(bytes))
}

/// A text at depth 0.
pub fn text_line(mark: &str, number: u16, text: &[u8]) -> String {
    line_of_kind("01", mark, number, text)
}

/// An order at depth 0.
pub fn order_line(mark: &str, number: u16, word: &[u8]) -> String {
    line_of_kind("03", mark, number, word)
}

/// A line as it stands in an element at depth 0.
pub fn inside(line: &str) -> String {
    format!("01{}", &line[2..])
}

/// Elements a, b and c, or the first of them, each with one of the texts inside.
pub fn elements_with(texts: &[&str]) -> Vec<String> {
    let elements = ["00020000000161", "00020000020162", "00020000040163"];
    let pairs = elements.iter().zip(texts);
    pairs.flat_map(|(element, text)| [element.to_string(), inside(text)]).collect()
}

/// Two things in both their orders; in one, if they are alike.
pub fn in_each_order<T: Copy + PartialEq>([one, other]: [T; 2]) -> Vec<[T; 2]> {
    match one == other {
        true => vec![[one, other]],
        false => vec![[one, other], [other, one]],
    }
}

/// The entry of a text of the program.
pub fn made_text(text: &[u8]) -> String {
    format!("03{}", counted(text))
}

/// A length, then so many bytes.
fn counted(text: &[u8]) -> String {
    let digits: String = text.iter().map(|byte| format!("{byte:02X}")).collect();
    format!("{:02X}{digits}", text.len())
}

/// 128 texts of 32 bytes.
pub fn longest_lines() -> Vec<String> {
    (0..128).map(|number| format!("000100{number:04X}20{}", "6C".repeat(32))).collect()
}

/// The entries that show what is in the elements of a tag, of those that slot 00 is bound to.
pub fn contents_of(tag: &str) -> [&str; 7] {
    ["08", "0500", "0A", "0B", tag, "06", "02"]
}

/// The entries that let the text in element a choose a branch; slot 00 has the whole master.
pub fn chosen_in_a<'a>(made: &'a str, yes: &[&'a str], no: &[&'a str]) -> Vec<&'a str> {
    let key = contents_of("120161");
    [&["0C00", "08"], &key[..], &["0B", "11", made], yes, no].concat()
}

/// The entries that compare each of the texts with each, and show it where they agree.
pub fn each_with_each() -> Vec<&'static str> {
    let outer = ["0C00", "08", "0500", "0A"];
    let inner = ["0C01", "08", "0500", "0A"];
    let compared = ["0B", "11", "0501", "01", "02"];
    [&outer[..], &inner, &compared].concat()
}

/// The entries that compare the text in element b with that in element a, and show both.
pub fn both_compared() -> Vec<&'static str> {
    let both = ["09", "01", "0501"];
    let compared = [&["0B", "11", "0501"], &both[..], &both[..]].concat();
    let of_a = [&["0C00", "08"], &contents_of("120161")[..]].concat();
    let of_b = [&["0C01", "08"], &contents_of("120162")[..]].concat();
    [of_a, of_b, compared].concat()
}

//! Register values in words, and words in lines.

pub use mitrophel::trace::words::*;
use std::iter;

/// Columns that reports keep to, whatever they are printed on.
pub const WIDTH: usize = 80;

/// Text in lines of at most so many characters, unless a word is longer.
pub fn wrapped(text: &str, width: usize) -> Vec<String> {
    let mut lines: Vec<String> = Vec::new();
    for word in text.split_whitespace() {
        match lines.last_mut() {
            Some(line) if line.chars().count() + 1 + word.chars().count() <= width => {
                line.push(' ');
                line.push_str(word);
            }
            _ => lines.push(word.to_string()),
        }
    }
    lines
}

/// Lines that start in a column, the first with words on its left, which are indented.
pub fn beside(left: &str, column: usize, lines: &[String]) -> Vec<String> {
    let lefts = iter::once(left).chain(iter::repeat(""));
    let width = column.saturating_sub(2);
    lefts.zip(lines).map(|(left, line)| format!("  {left:<width$}{line}")).collect()
}

#[cfg(test)]
mod tests {
    use super::*;

    #[test]
    fn text_is_wrapped_between_words() {
        assert_eq!(wrapped("one two  three", 7), ["one two", "three"]);
        assert_eq!(wrapped("", 7), [""; 0]);
        assert_eq!(wrapped("incomprehensible", 7), ["incomprehensible"]);
    }
    #[test]
    fn lines_stand_beside_words() {
        let lines = ["one", "two"].map(str::to_string);
        assert_eq!(beside("left", 8, &lines), ["  left  one", "        two"]);
        assert_eq!(beside("longer than that", 8, &lines), ["  longer than thatone", "        two"]);
        assert_eq!(beside("left", 8, &[]), [""; 0]);
    }
}

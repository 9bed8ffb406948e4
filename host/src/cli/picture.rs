//! A small picture of one byte a pixel, drawn in text: two rows of pixels to a line.

use super::style::Style;
use std::env;

/// What the bytes stand for, as numbers of the 256-colour palette; all but 0 are drawn without colour too.
const PALETTE: [u8; 5] = [17, 178, 94, 230, 130];

/// How pixels become characters.
#[derive(Clone, Copy, Debug, PartialEq, Eq)]
pub enum Glyphs {
    HalfBlocks,
    Ascii,
}

impl Glyphs {
    /// Half blocks, unless the locale names another character set than UTF-8.
    pub fn of_locale() -> Glyphs {
        let values = ["LC_ALL", "LC_CTYPE", "LANG"].into_iter().filter_map(env::var_os);
        let locale = values.into_iter().find(|value| !value.is_empty());
        match locale.map(|locale| locale.to_string_lossy().to_ascii_lowercase()) {
            Some(locale) if !locale.contains("utf-8") && !locale.contains("utf8") => Glyphs::Ascii,
            _ => Glyphs::HalfBlocks,
        }
    }
}

/// The lines of a picture.
pub fn lines(rows: &[Vec<u8>], glyphs: Glyphs, style: Style) -> Vec<String> {
    let colour = style.colour && glyphs == Glyphs::HalfBlocks;
    let blank = Vec::new();
    let pairs = rows.chunks(2).map(|pair| (&pair[0], pair.get(1).unwrap_or(&blank)));
    pairs.map(|(upper, lower)| if colour { coloured(upper, lower) } else { plain(upper, lower, glyphs) }).collect()
}

/// The upper half in the foreground's colour, the lower in the background's.
fn coloured(upper: &[u8], lower: &[u8]) -> String {
    let mut line = String::new();
    let mut last = None;
    for (at, &upper) in upper.iter().enumerate() {
        let colours = (shade(upper), shade(lower.get(at).copied().unwrap_or(0)));
        if last != Some(colours) {
            line.push_str(&format!("\x1b[38;5;{};48;5;{}m", colours.0, colours.1));
            last = Some(colours);
        }
        line.push('\u{2580}');
    }
    line.push_str("\x1b[0m");
    line
}

fn shade(pixel: u8) -> u8 {
    PALETTE.get(usize::from(pixel)).copied().unwrap_or(PALETTE[0])
}

fn plain(upper: &[u8], lower: &[u8], glyphs: Glyphs) -> String {
    let [none, top, bottom, both] = match glyphs {
        Glyphs::HalfBlocks => [' ', '\u{2580}', '\u{2584}', '\u{2588}'],
        Glyphs::Ascii => [' ', '"', '_', '#'],
    };
    let pixels =
        upper.iter().enumerate().map(|(at, &upper)| (upper != 0, lower.get(at).is_some_and(|&pixel| pixel != 0)));
    let line: String = pixels
        .map(|pair| match pair {
            (false, false) => none,
            (true, false) => top,
            (false, true) => bottom,
            (true, true) => both,
        })
        .collect();
    line.trim_end().to_string()
}

#[cfg(test)]
mod tests {
    use super::*;

    #[test]
    fn two_rows_of_pixels_make_a_line() {
        let rows = vec![vec![0, 1, 0, 1, 0], vec![0, 0, 1, 1, 0], vec![2, 2]];
        let style = Style { colour: false };
        assert_eq!(lines(&rows, Glyphs::HalfBlocks, style), [" \u{2580}\u{2584}\u{2588}", "\u{2580}\u{2580}"]);
        assert_eq!(lines(&rows, Glyphs::Ascii, style), [" \"_#", "\"\""]);
        let coloured = lines(&rows, Glyphs::HalfBlocks, Style { colour: true });
        assert!(coloured[0].starts_with("\x1b[38;5;17;48;5;17m\u{2580}\x1b[38;5;178;48;5;17m"));
        assert!(coloured.iter().all(|line| line.ends_with("\x1b[0m")));
    }
}

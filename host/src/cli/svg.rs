//! The address map as a picture.
//!
//! It has its own background, so that it can be read in any viewer, and darker colours for viewers
//! that prefer them. Every range carries its words; the colours only repeat them.

use super::survey::{Class, Map, Row, COLUMNS};
use super::words;

const ROW: usize = 40;
const LEFT: usize = 132;
const COLUMN: usize = 176;
const RIGHT: usize = 112;
const WIDTH: usize = LEFT + 4 * COLUMN + RIGHT;
const HEADING: usize = 30;
const LINE: usize = 20;
/// Characters of a line of text that find room in the width.
const CHARACTERS: usize = 112;

const STYLE: &str = "\
  text { font-family: 'DejaVu Sans', 'Segoe UI', Helvetica, Arial, sans-serif; font-size: 14px; fill: #1b1f24 }
  .title { font-size: 18px; font-weight: bold }
  .head { font-weight: bold }
  .address { font-family: 'DejaVu Sans Mono', Consolas, monospace; font-size: 13px; text-anchor: end }
  .middle { text-anchor: middle }
  .paper { fill: #ffffff }
  .cell { stroke: #57606a; stroke-width: 1 }
  .memory { fill: #c9e8cd } .registers { fill: #cfe0fa } .window { fill: #e2d4f7 } .vga { fill: #f6ebb8 }
  .hub { fill: #eceef0 } .error { fill: #fbdcbc } .refused { fill: #f9cccc } .nothing { fill: #ffffff }
  .split { fill: #c6e6e6 }
  .protected { fill: none; stroke: #b3191f; stroke-width: 3 }
  .mark { fill: #b3191f; font-weight: bold }
  @media (prefers-color-scheme: dark) {
    text { fill: #f0f3f6 }
    .paper { fill: #15191e } .cell { stroke: #8b949e }
    .memory { fill: #1d4a2a } .registers { fill: #1f3f6e } .window { fill: #46307a } .vga { fill: #584a10 }
    .hub { fill: #2c333b } .error { fill: #6b3d0d } .refused { fill: #6e1d20 } .nothing { fill: #15191e }
    .split { fill: #174a4e }
    .protected { stroke: #ff7b72 } .mark { fill: #ff7b72 }
  }
";

/// The picture, with the highest address on top as the datasheet draws it.
pub fn draw(map: &Map) -> String {
    let (lines, notes) = (map.lines.iter().flat_map(|line| words::wrapped(line, CHARACTERS)), map.notes());
    let lines: Vec<String> = lines.collect();
    let top = 44 + LINE * lines.len() + HEADING;
    let height = top + ROW * map.rows.len() + 28 + LINE * (notes.len() + 1);
    let mut svg = format!(
        "<svg xmlns=\"http://www.w3.org/2000/svg\" width=\"{WIDTH}\" height=\"{height}\" \
         viewBox=\"0 0 {WIDTH} {height}\" role=\"img\">\n<title>{}</title>\n<style>\n{STYLE}</style>\n\
         <rect class=\"paper\" width=\"{WIDTH}\" height=\"{height}\"/>\n",
        escaped(&map.title)
    );
    text(&mut svg, "title", 16, 30, &map.title);
    for (number, line) in lines.iter().enumerate() {
        text(&mut svg, "", 16, 54 + LINE * number, line);
    }
    for (number, column) in COLUMNS.iter().enumerate() {
        text(&mut svg, "head middle", LEFT + COLUMN * number + COLUMN / 2, top - 10, column);
    }
    for (number, row) in map.rows.iter().rev().enumerate() {
        draw_row(&mut svg, row, top + ROW * number);
    }
    for (number, row) in map.rows.iter().rev().enumerate().filter(|(_, row)| row.protected) {
        mark(&mut svg, row, top + ROW * number);
    }
    let foot = top + ROW * map.rows.len() + 28;
    text(&mut svg, "", 16, foot, "Framed in red: protected. Not to scale.");
    for (number, note) in notes.iter().enumerate() {
        text(&mut svg, "", 16, foot + LINE * (number + 1), note);
    }
    svg.push_str("</svg>\n");
    svg
}

fn draw_row(svg: &mut String, row: &Row, top: usize) {
    text(svg, "address", LEFT - 10, top + 16, &format!("{:08X}h", row.last));
    text(svg, "address", LEFT - 10, top + 34, &format!("{:08X}h", row.first));
    for (number, cell) in row.cells.iter().enumerate() {
        let left = LEFT + COLUMN * number;
        svg.push_str(&format!(
            "<rect class=\"cell {}\" x=\"{left}\" y=\"{top}\" width=\"{COLUMN}\" height=\"{ROW}\"/>\n",
            class(cell.class)
        ));
        text(svg, "middle", left + COLUMN / 2, top + 25, &cell.text);
    }
    let beside = LEFT + 4 * COLUMN + 12;
    text(svg, "", beside, top + if row.protected { 17 } else { 25 }, row.name);
    if row.protected {
        text(svg, "mark", beside, top + 35, "protected");
    }
}

/// The frame around a protected range.
fn mark(svg: &mut String, row: &Row, top: usize) {
    svg.push_str(&format!(
        "<rect class=\"protected\" x=\"{LEFT}\" y=\"{top}\" width=\"{}\" height=\"{ROW}\"><title>protected: \
         {:08X}h-{:08X}h</title></rect>\n",
        4 * COLUMN,
        row.first,
        row.last
    ));
}

fn text(svg: &mut String, class: &str, x: usize, y: usize, words: &str) {
    let class = if class.is_empty() { String::new() } else { format!(" class=\"{class}\"") };
    svg.push_str(&format!("<text{class} x=\"{x}\" y=\"{y}\">{}</text>\n", escaped(words)));
}

fn class(class: Class) -> &'static str {
    match class {
        Class::Memory => "memory",
        Class::Registers => "registers",
        Class::Window => "window",
        Class::Vga => "vga",
        Class::Hub => "hub",
        Class::Split => "split",
        Class::Error => "error",
        Class::Refused => "refused",
        Class::Nothing => "nothing",
    }
}

fn escaped(text: &str) -> String {
    text.replace('&', "&amp;").replace('<', "&lt;").replace('>', "&gt;")
}

//! Request 2 of document 02: "Do it with shifts and masks, however it is done now: no division or remainder is left in
//! it. No answer may differ".

mod common;

use common::{reached, replay_both, seed, Random, Script, MIB};
use mitrophel::Target;
use std::collections::BTreeMap;
use std::fs;

/// The text of each crate's `src/lib.rt`.
type Sources = BTreeMap<String, String>;

fn sources() -> Sources {
    let crates = concat!(env!("CARGO_MANIFEST_DIR"), "/../crates");
    let folders = fs::read_dir(crates).expect("the crates").map(|entry| entry.expect("a crate").path());
    let libraries = folders.filter_map(|folder| {
        let name = folder.file_name()?.to_str()?.to_owned();
        Some((name, fs::read_to_string(folder.join("src/lib.rt")).ok()?))
    });
    libraries.collect()
}

/// The body of a function without its comments. In the formatter's layout it starts at a line `{` below the contract, or
/// at the end of the head where there is no contract, and ends at a line `}`.
fn body(source: &str, function: &str) -> Option<String> {
    let head = format!("fn {function}(");
    let mut lines = source.lines().skip_while(|line| !line.trim_start_matches("pub ").starts_with(&head));
    if !lines.next()?.ends_with('{') {
        lines.find(|line| *line == "{")?;
    }
    let text = lines.take_while(|line| *line != "}").map(|line| line.split("//").next().unwrap_or_default());
    Some(text.collect::<Vec<&str>>().join("\n"))
}

/// What a body calls, as `function` or `crate::function`. A name with a capital letter makes a value and calls nothing.
fn calls(body: &str) -> Vec<&str> {
    let part_of_name = |c: char| c.is_alphanumeric() || c == '_' || c == ':';
    let before_parenthesis = body.match_indices('(').map(|(at, _)| &body[..at]);
    let names = before_parenthesis.map(|text| &text[text.trim_end_matches(part_of_name).len()..]);
    let called = |name: &&str| name.rsplit(':').next().is_some_and(|last| last.starts_with(char::is_lowercase));
    names.filter(called).collect()
}

/// The function and all that it calls, by path, with their bodies.
fn reached_from(path: &str, sources: &Sources) -> BTreeMap<String, String> {
    let mut found = BTreeMap::new();
    let mut open = vec![path.to_owned()];
    while let Some(path) = open.pop() {
        let (home, function) = path.split_once("::").expect("a crate and a function");
        let source = sources.get(home).unwrap_or_else(|| panic!("{path}: no crate has its source"));
        let body = body(source, function).unwrap_or_else(|| panic!("{path} has no body"));
        let paths = calls(&body).into_iter().map(|name| match name.contains("::") {
            true => name.to_owned(),
            false => format!("{home}::{name}"),
        });
        open.extend(paths.filter(|path| !found.contains_key(path)));
        found.insert(path, body);
    }
    found
}

/// The functions between a window offset and its fenced offset whose text has a division or a remainder.
fn divisions(sources: &Sources) -> Vec<String> {
    let functions = reached_from("graphics::fence", sources).into_iter();
    functions.filter(|(_, body)| body.contains(['/', '%'])).map(|(path, _)| path).collect()
}

#[test]
fn no_division_or_remainder_is_left_between_a_window_offset_and_its_fenced_offset() {
    assert_eq!(divisions(&sources()), Vec::<String>::new());
}

#[test]
fn a_division_or_a_remainder_in_any_of_the_fence_functions_is_seen() {
    let sources = sources();
    let functions: Vec<String> = reached_from("graphics::fence", &sources).into_keys().collect();
    for name in ["fence", "fence_matches", "fence_size", "fence_start", "ill_formed", "pitch", "tile"] {
        assert!(functions.contains(&format!("graphics::{name}")), "{name} is not among {functions:?}");
    }
    assert!(functions.contains(&"words::within".to_owned()), "{functions:?}");
    for (path, operator) in functions.iter().flat_map(|path| [(path, "/"), (path, "%")]) {
        let (home, function) = path.split_once("::").expect("a crate and a function");
        let mut changed = sources.clone();
        let source = changed.get_mut(home).expect("a source");
        let head = source.find(&format!("fn {function}(")).expect("the function");
        let at = head + source[head..].find("\n{\n").expect("its body") + 3;
        source.insert_str(at, &format!("    let half = 1 {operator} 2; // two halves\n"));
        assert_eq!(divisions(&changed), [path.as_str()]);
    }
}

#[test]
fn a_division_behind_a_call_is_seen_and_one_in_a_comment_or_a_contract_is_none() {
    let source = |operator: &str| {
        format!(
            "// f / 2
pub fn fence(f: u32) -> Reach
    ensures {{ λ r. ⌜ r ≡ f / 8 % 8 ⌝ }}
{{
    Reach::At(below(f)) // f / 8 % 8
}}

fn below(f: u32) -> u32 {{
    f {operator} 3
}}
"
        )
    };
    for (operator, seen) in [(">>", vec![]), ("/", vec!["graphics::below"]), ("%", vec!["graphics::below"])] {
        let sources = Sources::from([("graphics".to_owned(), source(operator))]);
        assert_eq!(divisions(&sources), seen, "{operator}");
    }
}

/// "With d = o - start, y = d / P, x = d mod P: result start + 2048((y/16)(P/128) + x/128) + 128(y mod 16) + x mod 128."
fn by_division(start: u32, pitch: u32, offset: u32) -> u32 {
    let (y, x) = ((offset - start) / pitch, (offset - start) % pitch);
    start + 2048 * ((y / 16) * (pitch / 128) + x / 128) + 128 * (y % 16) + x % 128
}

/// Every well-formed pitch and size, at the first, the last and a random place of the window: each bit of the offset by
/// itself, the region's ends, and random offsets. Every page of the window is mapped to the page of the same number.
#[test]
fn every_well_formed_fence_gives_the_sum_by_division() {
    const WINDOW: u32 = 64 << 20;
    let mut random = Random::new(seed());
    let mut script = Script::new();
    script.graphics();
    for page in 0..WINDOW / 4096 {
        script.entry(page, page << 12 | 1);
    }
    script.translation_on();
    let mut expected = Vec::new();
    for (size_code, pitch_code) in (0..7).flat_map(|size| (0..6).map(move |pitch| (size, pitch))) {
        let size = (512 << 10) << size_code;
        let places = WINDOW / size;
        for start in [0, places - 1, random.below(places)].map(|place| place * size) {
            script.register_write(0x2000, start | size_code << 8 | pitch_code << 4 | 1);
            let bits = (2..32).map(|bit| 1 << bit).filter(|bit| *bit < size);
            let chosen = (0..200).map(|_| random.below(size) & !3);
            for offset in bits.chain([0, size - 4]).chain(chosen).map(|d| start + d) {
                let read = script.window_read(offset, 4);
                expected.push((read, by_division(start, 128 << pitch_code, offset)));
            }
        }
    }
    let answers = replay_both(0, &mut vec![0; 64 * MIB], &script.records);
    for (read, address) in expected {
        assert_eq!(answers[read], reached(Target::Memory, address, 0), "{}", script.records[read]);
    }
}

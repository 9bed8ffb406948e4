//! The ring's words from head to tail, each where the parser would fetch it.

use super::Page;
use crate::cli::numbers;
use crate::cli::pair::Hub;
use crate::cli::survey;
use crate::cli::told::{self, Tone};
use mitrophel::reference::Place;
use mitrophel::trace::REDACTED;
use mitrophel::Refusal;
use std::ops::Range;

/// Lines at most; what is left is counted.
const LINES: usize = 32;

/// What a fetch would find.
#[derive(Clone, Copy, Debug, PartialEq, Eq)]
enum Fetched {
    Word {
        place: Place,
        word: u32,
    },
    /// A word of main memory that is not for everybody.
    Hidden {
        address: u32,
    },
    /// A word whose table entry is not for everybody, nor whether there is a word.
    Unseen,
    /// The table entry tells refusals apart.
    Refused {
        refusal: Refusal,
        entry: u32,
    },
}

/// Equal words one after the other.
#[derive(Clone, Copy, Debug, PartialEq, Eq)]
struct Run {
    /// The first word's, in the ring.
    offset: u32,
    words: u32,
    first: Fetched,
}

impl Run {
    /// Whether another word, at this offset of the ring, belongs to the run.
    fn takes(&self, offset: u32, next: Fetched) -> bool {
        let alike = match (self.first, next) {
            (Fetched::Word { place, word }, Fetched::Word { place: at, word: other }) => {
                word == other && at == further(place, 4 * self.words)
            }
            (Fetched::Hidden { address }, Fetched::Hidden { address: at }) => at == address + 4 * self.words,
            (first, next) => first == next,
        };
        alike && offset == self.offset + 4 * self.words
    }
}

/// A place so many bytes further in the same memory.
fn further(place: Place, bytes: u32) -> Place {
    match place {
        Place::Memory(address) => Place::Memory(address + bytes),
        Place::DisplayCache(address) => Place::DisplayCache(address + bytes),
    }
}

/// The ring and its words.
pub fn words(page: &mut Page, hub: &Hub<'_>, guarded: &[Range<u32>]) {
    let ring = hub.ring();
    let (head, tail, bytes) = (ring.head_offset(), ring.tail, ring.bytes());
    let state = if ring.enabled() { "" } else { " (not enabled: a run takes no step)" };
    if head >= bytes || tail >= bytes {
        page.heading(&format!("Ring{state}"));
        return page.toned("every step", &Refusal::RingOffset.to_string(), Tone::Refused);
    }
    let count = (tail + bytes - head) % bytes / 4;
    page.heading(&format!("Ring, {} from head to tail{state}", numbers::counted(count.into(), "word")));
    if count != 0 {
        page.row("offset    address   words", "instruction");
    }
    let mut shown = 0;
    for run in runs(hub, guarded).take(LINES) {
        line(page, hub, &run);
        shown += run.words;
    }
    if shown < count {
        page.row(&format!(".. and {} more words", numbers::grouped((count - shown).into())), "");
    }
}

/// The words in runs.
fn runs<'a>(hub: &'a Hub<'_>, guarded: &'a [Range<u32>]) -> impl Iterator<Item = Run> + 'a {
    let ring = hub.ring();
    let fetch = move |offset| fetch(hub, guarded, ring.start + offset);
    let mut offset = ring.head_offset();
    std::iter::from_fn(move || {
        if offset == ring.tail {
            return None;
        }
        let mut run = Run { offset, words: 0, first: fetch(offset) };
        while offset != ring.tail && (run.words == 0 || run.takes(offset, fetch(offset))) {
            run.words += 1;
            offset = (offset + 4) % ring.bytes();
        }
        Some(run)
    })
}

/// What the parser would find at a graphics offset.
fn fetch(hub: &Hub<'_>, guarded: &[Range<u32>], offset: u32) -> Fetched {
    let entry = offset / 4096;
    match hub.fetch_address(offset) {
        Err(refusal @ (Refusal::OutsideWindow | Refusal::TranslationOff)) => Fetched::Refused { refusal, entry: 0 },
        _ if survey::hides_word(hub, guarded, entry as usize) => Fetched::Unseen,
        Ok(Place::Memory(address)) if guarded.iter().any(|range| range.contains(&address)) => {
            Fetched::Hidden { address }
        }
        Ok(place) => Fetched::Word { place, word: hub.word(place) },
        Err(refusal) => Fetched::Refused { refusal, entry },
    }
}

fn line(page: &mut Page, hub: &Hub<'_>, run: &Run) {
    let (address, (tone, text)) = match run.first {
        Fetched::Word { place, word } => {
            let (tone, text) = instruction(word);
            let from = if matches!(place, Place::DisplayCache(_)) { ", in the display cache" } else { "" };
            (format!("{:X}h", place.address()), (tone, format!("{text}{from}")))
        }
        Fetched::Hidden { address } => (format!("{address:X}h"), (Tone::Reached, REDACTED.to_string())),
        Fetched::Unseen => (REDACTED.to_string(), (Tone::Reached, REDACTED.to_string())),
        Fetched::Refused { refusal, .. } => {
            let why = told::bad_entry(hub, refusal, hub.ring().start + run.offset, false);
            (String::new(), (Tone::Refused, format!("refused {}: {why}", refusal.code())))
        }
    };
    let words = numbers::grouped(run.words.into());
    page.toned(&format!("{:05X}h  {address:>9}  {words:>6}", run.offset), &text, tone);
}

/// "Bits 31:29 zero and 28:23: 00h nothing, 02h user interrupt, 04h flush (nothing), else 12; other bits
/// are not looked at."
fn instruction(word: u32) -> (Tone, String) {
    let name = match word >> 23 {
        0x00 => "noop",
        0x02 => "user_interrupt",
        0x04 => "flush",
        _ => return (Tone::Refused, format!("unknown {word:08X}h: refused {}", Refusal::UnknownInstruction.code())),
    };
    match word & 0x007F_FFFF {
        0 => (Tone::Reached, name.to_string()),
        _ => (Tone::Reached, format!("{name} ({word:08X}h)")),
    }
}

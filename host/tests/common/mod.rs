//! What the tests share: seeded random numbers, scripts of records, and a check that the proved call
//! and the reference agree.
#![allow(dead_code)]

pub mod compare;
pub mod display;
pub mod forbidden;
pub mod generate;
#[cfg(all(target_os = "linux", target_arch = "x86_64"))]
pub mod guarded;
pub mod isolation;
pub mod places;
pub mod power;
pub mod shadow;
pub mod top;
pub mod words;

use display::Display;
use forbidden::Forbidden;
use mitrophel::reference::Smram;
use mitrophel::reference::{Observer, Rule, TableWord, Touch};
use mitrophel::{call, record, reference, Answer, Board, Kind, Record, Refusal, Target};
use places::Places;
use power::Power;
use shadow::Shadow;
use std::fmt;
use top::{Met, Top};
use words::{Event, Words};

pub const MIB: usize = 1 << 20;

/// One more than the largest code.
const CODES: usize = 17;

/// Whether an answer can have this code: 1 is the call's own result.
pub fn is_answered(code: u8) -> bool {
    code == 0 || Refusal::from_code(code).is_some_and(|refusal| refusal != Refusal::Arguments)
}

/// splitmix64: small, seeded, and good enough to choose cases.
#[derive(Clone)]
pub struct Random(u64);

impl Random {
    pub fn new(seed: u64) -> Random {
        Random(seed)
    }

    /// The numbers of one list of a run: each list can be made again by itself.
    pub fn for_list(seed: u64, list: u64) -> Random {
        let mut random = Random(seed ^ list.wrapping_mul(0xD134_2543_DE82_EF95));
        random.next();
        random
    }

    pub fn next(&mut self) -> u64 {
        self.0 = self.0.wrapping_add(0x9E37_79B9_7F4A_7C15);
        let z = (self.0 ^ (self.0 >> 30)).wrapping_mul(0xBF58_476D_1CE4_E5B9);
        let z = (z ^ (z >> 27)).wrapping_mul(0x94D0_49BB_1331_11EB);
        z ^ (z >> 31)
    }

    pub fn word(&mut self) -> u32 {
        (self.next() >> 32) as u32
    }

    /// A number below `bound`, or 0 where there is none.
    pub fn below(&mut self, bound: u32) -> u32 {
        ((u64::from(self.word()) * u64::from(bound)) >> 32) as u32
    }

    /// True once in `n` times.
    pub fn one_in(&mut self, n: u32) -> bool {
        self.below(n) == 0
    }

    pub fn pick<T: Copy>(&mut self, choices: &[T]) -> T {
        choices[self.below(choices.len() as u32) as usize]
    }
}

/// The seed of a test: the environment's `MITROPHEL_SEED`, or a fixed one. It is printed, so that a
/// failure can be made again.
pub fn seed() -> u64 {
    let seed = match std::env::var("MITROPHEL_SEED") {
        Ok(text) => text.trim().parse().expect("MITROPHEL_SEED is a decimal number"),
        Err(_) => 82_810,
    };
    println!("seed {seed} (set MITROPHEL_SEED to use another)");
    seed
}

/// A number of lists: the environment's `MITROPHEL_LISTS`, or the one given.
pub fn lists(default: u64) -> u64 {
    match std::env::var("MITROPHEL_LISTS") {
        Ok(text) => text.trim().parse().expect("MITROPHEL_LISTS is a decimal number"),
        Err(_) => default,
    }
}

/// Notes which rules were used and which bytes of memory were touched.
#[derive(Default)]
pub struct Watch {
    pub coverage: Coverage,
    /// Every write of the list.
    pub writes: Vec<Touch>,
    /// Every read of the list, fetches too, where `note_reads` is set.
    pub reads: Vec<Touch>,
    pub note_reads: bool,
    /// For each record, where it landed if it is an access that reached memory.
    pub landings: Vec<Option<Touch>>,
    last: Option<Touch>,
    /// Every write of the list to the display cache.
    pub display_writes: Vec<Touch>,
    /// Where the record touched it last, and the entry that it looked up last.
    display_touch: Option<Touch>,
    entry: Option<u32>,
    /// The board's number.
    pub board: usize,
    pub words: Words,
    /// Whether a reset has opened a locked board.
    reopened: bool,
}

impl Observer for Watch {
    fn routed(&mut self, rule: Rule) {
        self.coverage.rules[rule as usize] += 1;
        self.words.routed(rule);
    }

    fn table_word(&mut self, word: TableWord) {
        self.words.table_word(word, &mut self.coverage);
    }

    fn touched(&mut self, touch: Touch) {
        self.words.touched(touch, &mut self.coverage);
        self.last = Some(touch);
        if touch.write {
            self.writes.push(touch);
        } else if self.note_reads {
            self.reads.push(touch);
        }
    }

    fn looked_up(&mut self, entry: u32) {
        self.entry = Some(entry);
        self.display_touch = None;
    }

    fn display_touched(&mut self, touch: Touch) {
        self.display_touch = Some(touch);
        if touch.write {
            self.display_writes.push(touch);
        }
    }

    fn answered(&mut self, record: &Record, answer: &Answer) {
        let landing = self.last.take();
        let (entry, touch) = (self.entry.take(), self.display_touch.take());
        let (meets, rule, word) = (&self.words.meets, self.words.rule(), self.words.word());
        let met = Met { meets, rule, word, entry, landing, record, answer };
        self.coverage.top.note(self.board, &met);
        self.coverage.shadow.note(self.board, &met);
        let (writer, reopened) = (self.words.writer(), self.reopened);
        let forbidden = forbidden::Met { meets, rule, entry, writer, reopened, record, answer };
        self.coverage.forbidden.note(self.board, &forbidden);
        let reset = record.kind() == Some(Kind::Reset) && answer.code == 0;
        self.reopened |= reset && Smram(meets.smram).locked();
        let written = !self.display_writes.is_empty();
        self.coverage.display.note(self.board, &display::Met { meets, rule, entry, touch, written, record, answer });
        // A table word may have been touched last, or only.
        self.landings.push(landing.filter(|_| answer.target == Target::Memory.number()));
        if answer.code != 0 && self.words.by_window() {
            let by_word = self.words.word_refused();
            self.coverage.places.note(self.board, &self.words.meets, by_word, record, answer);
        }
        self.coverage.power.note(self.board, self.words.meets.pm_cs, record, answer);
        self.words.answered();
        self.coverage.kinds[usize::from(record.kind).min(10) % 10] += 1;
        self.coverage.codes[self.board][usize::from(answer.code)] += 1;
        self.coverage.targets[usize::from(answer.target)] += 1;
    }
}

/// How often each kind, code, target, rule and event was seen, each place of a refusal, each write of a power state, and
/// each thing that can be met of a display cache, of entries that are forbidden, and of shadow memory and the hole.
#[derive(Clone, Default)]
pub struct Coverage {
    /// By kind; number 0 counts the records of no kind.
    pub kinds: [u64; 10],
    /// By board.
    pub codes: [[u64; CODES]; Board::ALL.len()],
    pub targets: [u64; Target::ALL.len()],
    pub rules: [u64; Rule::ALL.len()],
    pub events: [u64; Event::ALL.len()],
    pub places: Places,
    pub power: Power,
    pub display: Display,
    pub forbidden: Forbidden,
    pub shadow: Shadow,
    /// Counted by itself: only the largest memory can be asked for all of it.
    pub top: Top,
}

impl Coverage {
    pub fn note(&mut self, event: Event) {
        self.events[event as usize] += 1;
    }

    fn counts(&self) -> impl Iterator<Item = &u64> {
        let codes = self.codes.iter().flatten();
        let counts = self.kinds.iter().chain(codes).chain(&self.targets).chain(&self.rules).chain(&self.events);
        let counts = counts.chain(self.places.counts()).chain(self.power.counts()).chain(self.display.counts());
        counts.chain(self.forbidden.counts()).chain(self.shadow.counts())
    }

    fn counts_mut(&mut self) -> impl Iterator<Item = &mut u64> {
        let codes = self.codes.iter_mut().flatten();
        let counts = self.kinds.iter_mut().chain(codes).chain(&mut self.targets);
        counts
            .chain(&mut self.rules)
            .chain(&mut self.events)
            .chain(self.places.counts_mut())
            .chain(self.power.counts_mut())
            .chain(self.display.counts_mut())
            .chain(self.forbidden.counts_mut())
            .chain(self.shadow.counts_mut())
    }

    /// What each of the counts is of; none for what cannot be.
    fn names() -> Vec<Option<String>> {
        let mut names: Vec<_> = (0..10).map(|kind| Some(format!("kind {kind}"))).collect();
        names[0] = Some("no kind".to_string());
        for board in Board::ALL {
            let codes = (0..CODES as u8).map(|code| is_answered(code).then(|| format!("code {code}, board {board}")));
            names.extend(codes);
        }
        names.extend((0..Target::ALL.len()).map(|target| Some(format!("target {target}"))));
        names.extend(Rule::ALL.iter().map(Rule::to_string).map(Some));
        names.extend(Event::ALL.iter().map(Event::to_string).map(Some));
        let names = names.into_iter().chain(Places::names()).chain(Power::names().into_iter().map(Some));
        names.chain(Display::names()).chain(Forbidden::names()).chain(Shadow::names()).collect()
    }

    /// Each count with its name.
    fn named(&self) -> Vec<(String, u64)> {
        let names = Coverage::names();
        assert_eq!(names.len(), self.counts().count());
        names.into_iter().zip(self.counts()).filter_map(|(name, &count)| Some((name?, count))).collect()
    }

    pub fn add(&mut self, other: &Coverage) {
        for (own, other) in self.counts_mut().zip(other.counts()) {
            *own += other;
        }
        self.top.add(&other.top);
    }

    /// How many uses of a table word in main memory were refused because it is protected.
    pub fn protected_words(&self) -> u64 {
        Event::PROTECTED.iter().map(|&event| self.events[event as usize]).sum()
    }

    /// What was never seen.
    pub fn missing(&self) -> Vec<String> {
        self.named().into_iter().filter(|(_, count)| *count == 0).map(|(name, _)| name).collect()
    }
}

impl fmt::Display for Coverage {
    fn fmt(&self, f: &mut fmt::Formatter<'_>) -> fmt::Result {
        self.named().iter().try_for_each(|(name, count)| writeln!(f, "{count:>10}  {name}"))
    }
}

/// A display cache of the length that this board is lent, all zero.
pub fn blank_display(board: u32) -> Vec<u8> {
    vec![0; Board::from_number(board).map_or(0, Board::display_bytes)]
}

/// [`replay_with_display`] with a display cache of zeros, where the board has one.
#[track_caller]
pub fn replay_both(board: u32, memory: &mut [u8], records: &[Record]) -> Vec<Answer> {
    replay_with_display(board, memory, records, &mut blank_display(board))
}

/// Replays the records through the proved call and through the reference, asks that both agree in
/// every answer and every byte of both memories, and gives the answers.
#[track_caller]
pub fn replay_with_display(board: u32, memory: &mut [u8], records: &[Record], display: &mut [u8]) -> Vec<Answer> {
    let bytes = record::encode(records);
    let (mut expected_memory, mut expected_display) = (memory.to_vec(), display.to_vec());
    let mut expected = vec![0xA5; bytes.len()];
    let mut actual = vec![0x5A; bytes.len()];
    assert_eq!(reference::replay(board, &mut expected_memory, &bytes, &mut expected, &mut expected_display), 0);
    assert_eq!(call::gmch_replay(board, memory, &bytes, &mut actual, display), 0);
    let pairs = record::decode_answers(&expected).zip(record::decode_answers(&actual));
    for (record, (expected, actual)) in records.iter().zip(pairs) {
        assert_eq!(actual, expected, "{record}");
    }
    assert!(memory == expected_memory, "memory differs");
    assert!(display == expected_display, "the display cache differs");
    record::decode_answers(&actual).collect()
}

/// A list of records under construction, over a board whose bases are fixed. A method that adds the
/// record a test asks about gives its number in the list.
#[derive(Clone, Default)]
pub struct Script {
    pub records: Vec<Record>,
}

impl Script {
    /// Where [`Script::graphics`] puts the window and the memory-mapped registers.
    pub const WINDOW: u32 = 0xC000_0000;
    pub const REGISTERS: u32 = 0xF000_0000;

    pub fn new() -> Script {
        Script::default()
    }

    pub fn push(&mut self, record: Record) -> usize {
        self.records.push(record);
        self.records.len() - 1
    }

    fn select(&mut self, device: u32, register: u32) -> u32 {
        self.push(Record::io_write(0xCF8, 4, 0x8000_0000 | device << 11 | register & 0xFC));
        0xCFC + register % 4
    }

    pub fn config_write(&mut self, device: u32, register: u32, width: u8, data: u32) -> usize {
        let port = self.select(device, register);
        self.push(Record::io_write(port, width, data))
    }

    pub fn config_read(&mut self, device: u32, register: u32, width: u8) -> usize {
        let port = self.select(device, register);
        self.push(Record::io_read(port, width))
    }

    pub fn smram(&mut self, value: u8) -> usize {
        self.config_write(0, 0x70, 1, u32::from(value))
    }

    pub fn read_smram(&mut self) -> usize {
        self.config_read(0, 0x70, 1)
    }

    /// Graphics on with nothing taken, both bases set, memory access of device 1 on.
    pub fn graphics(&mut self) -> &mut Script {
        self.smram(0x40);
        self.config_write(1, 0x10, 4, Script::WINDOW);
        self.config_write(1, 0x14, 4, Script::REGISTERS);
        self.config_write(1, 0x04, 1, 0x06);
        self
    }

    pub fn register_write(&mut self, offset: u32, data: u32) -> usize {
        self.push(Record::write(Script::REGISTERS + offset, register_width(offset), data, false))
    }

    pub fn register_read(&mut self, offset: u32) -> usize {
        self.push(Record::read(Script::REGISTERS + offset, register_width(offset), false))
    }

    pub fn entry(&mut self, number: u32, data: u32) -> usize {
        self.register_write(0x1_0000 + 4 * number, data)
    }

    pub fn translation_on(&mut self) -> usize {
        self.register_write(0x2020, 1)
    }

    pub fn window_read(&mut self, offset: u32, width: u8) -> usize {
        self.push(Record::read(Script::WINDOW + offset, width, false))
    }

    /// The ring's four registers; `length` is 203Ch as written.
    pub fn ring(&mut self, start: u32, length: u32, head: u32, tail: u32) -> &mut Script {
        self.register_write(0x2030, tail);
        self.register_write(0x2034, head);
        self.register_write(0x2038, start);
        self.register_write(0x203C, length);
        self
    }

    pub fn run(&mut self, budget: u32) -> usize {
        self.push(Record::run(budget))
    }

    /// Replays on 8 MiB of zeros, on the 82810.
    #[track_caller]
    pub fn replay(&self) -> Vec<Answer> {
        self.replay_on(&mut vec![0; 8 * MIB])
    }

    #[track_caller]
    pub fn replay_on(&self, memory: &mut [u8]) -> Vec<Answer> {
        replay_both(0, memory, &self.records)
    }
}

/// The width of the memory-mapped register at this offset.
pub fn register_width(offset: u32) -> u8 {
    match offset {
        0x20A0..0x20B0 => 2,
        0x3000..0x3004 => 1,
        _ => 4,
    }
}

/// An answer with a target.
pub fn reached(target: Target, address: u32, value: u32) -> Answer {
    Answer { target: target.number(), address, value, ..Answer::default() }
}

pub fn hub(address: u32) -> Answer {
    reached(Target::Hub, address, 0)
}

/// CF8h by its port, or a register of a device by its number.
pub fn register(address: u32, value: u32) -> Answer {
    reached(Target::Register, address, value)
}

pub fn mapped(offset: u32, value: u32) -> Answer {
    reached(Target::MemoryMapped, offset, value)
}

/// A refusal with the interrupt line down.
pub fn refused(code: u8) -> Answer {
    Answer { code, ..Answer::default() }
}

/// A refusal of a window access, with its offset, and the interrupt line down: request 5 of document 02.
pub fn refused_at(code: u8, offset: u32) -> Answer {
    Answer { address: offset, ..refused(code) }
}

/// A run's answer with the interrupt line down.
pub fn ran(code: u8, head: u32, count: u32) -> Answer {
    Answer { code, address: head, count, ..Answer::default() }
}

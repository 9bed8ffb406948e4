//! The proved call against the reference: the same records, in the same process, interleaved, each
//! time the best of many rounds. `MITROPHEL_ROUNDS` sets how many rounds without a better time end a
//! measurement. Arguments are parts of the names of the loads wanted; without one, all are run.

use mitrophel::{call, record, reference, Board, Kind, Record};
use std::hint::black_box;
use std::time::{Duration, Instant};

const MEMORY: usize = 8 << 20;
/// Larger than the caches of the machines this is run on.
const EVICTION: usize = 64 << 20;
const DEFAULT_ROUNDS: u32 = 15;
/// Records of a load after its setup. A replay should be shorter than a time slice.
const WORK: usize = 20_000;

const WINDOW: u32 = 0xC000_0000;
const REGISTERS: u32 = 0xF000_0000;
const PAGE: u32 = 4096;
/// Where a table in main memory lies: past the pages that the loads map.
const TABLE: u32 = 7 << 20;
/// The boards of the loads: one with a private table, one with its table in main memory, and one with a private table and
/// a display cache.
const PRIVATE: Board = Board::I82810;
const MAIN: Board = Board::I82810Main;
const CACHED: Board = Board::Dc100;

/// splitmix64
struct Random(u64);

impl Random {
    fn below(&mut self, bound: u32) -> u32 {
        self.0 = self.0.wrapping_add(0x9E37_79B9_7F4A_7C15);
        let z = (self.0 ^ (self.0 >> 30)).wrapping_mul(0xBF58_476D_1CE4_E5B9);
        let z = (z ^ (z >> 27)).wrapping_mul(0x94D0_49BB_1331_11EB);
        ((((z ^ (z >> 31)) >> 32) * u64::from(bound)) >> 32) as u32
    }

    /// An offset below `bound` and a width that fits there.
    fn place(&mut self, bound: u32) -> (u32, u8) {
        match self.below(3) {
            0 => (self.below(bound), 1),
            1 => (self.below(bound) & !1, 2),
            _ => (self.below(bound) & !3, 4),
        }
    }
}

/// One list of records and what its time is divided by.
struct Load {
    name: &'static str,
    unit: &'static str,
    board: Board,
    /// A display cache begins as main memory does.
    memory: fn(&mut Random) -> Vec<u8>,
    records: Vec<Record>,
}

fn config(records: &mut Vec<Record>, device: u32, register: u32, width: u8, data: u32) {
    records.push(Record::io_write(0xCF8, 4, 0x8000_0000 | device << 11 | register & 0xFC));
    records.push(Record::io_write(0xCFC + register % 4, width, data));
}

fn register(offset: u32, data: u32) -> Record {
    Record::write(REGISTERS + offset, 4, data, false)
}

/// Graphics on, translation on, and as many pages of the window mapped one after the other from
/// 1 MiB on, around the memory's end. At most 1,536 pages leave a table in main memory alone. Of a board that has a
/// display cache they are the cache's, from 0 on, around its end.
fn setup(board: Board, pages: u32) -> Vec<Record> {
    let mut records = Vec::new();
    config(&mut records, 0, 0x70, 1, 0x40);
    config(&mut records, 1, 0x10, 4, WINDOW);
    config(&mut records, 1, 0x14, 4, REGISTERS);
    config(&mut records, 1, 0x04, 1, 0x06);
    records.push(register(0x2020, if board.table_in_memory() { TABLE | 1 } else { 1 }));
    let cached = board.display_bytes() as u32;
    if cached != 0 {
        records.push(Record::write(REGISTERS + 0x3000, 1, 1, false));
    }
    for page in 0..pages {
        let entry = match cached {
            0 => ((1 << 20) + page * PAGE % (7 << 20)) | 1,
            bytes => (page * PAGE % bytes) | 0b011,
        };
        records.push(register(0x1_0000 + 4 * page, entry));
    }
    records
}

fn noise(random: &mut Random) -> Vec<u8> {
    (0..MEMORY).map(|_| random.below(256) as u8).collect()
}

/// Zeros are no-ops.
fn no_ops(_: &mut Random) -> Vec<u8> {
    vec![0; MEMORY]
}

fn mixed_opcodes(random: &mut Random) -> Vec<u8> {
    let mut word = || [0x00, 0x02, 0x04][random.below(3) as usize] << 23 | random.below(1 << 23);
    (0..MEMORY / 4).flat_map(|_| u32::to_le_bytes(word())).collect()
}

/// Reads through the window over its first 4 MiB, with these fences.
fn window_reads(name: &'static str, board: Board, fences: &[u32], random: &mut Random) -> Load {
    let mut records = setup(board, 1024);
    for (number, fence) in fences.iter().enumerate() {
        records.push(register(0x2000 + 4 * number as u32, *fence));
    }
    for _ in 0..WORK {
        let (offset, width) = random.place(4 << 20);
        records.push(Record::read(WINDOW + offset, width, false));
    }
    Load { name, unit: "record", board, memory: noise, records }
}

/// Runs of this budget over a ring of 2 MiB that starts full each time it is empty.
fn runs(name: &'static str, board: Board, memory: fn(&mut Random) -> Vec<u8>, budget: u32, count: u32) -> Load {
    const WORDS: u32 = (2 << 20) / 4 - 2;
    let mut records = setup(board, 512);
    records.push(register(0x203C, 511 << 12 | 1));
    records.push(register(0x2030, 4 * WORDS));
    let per_filling = WORDS / budget.min(WORDS);
    for i in 0..count {
        if i % per_filling == 0 {
            records.push(register(0x2034, 0));
        }
        records.push(Record::run(budget));
    }
    Load { name, unit: "step", board, memory, records }
}

fn table_writes(name: &'static str, board: Board, random: &mut Random) -> Load {
    let mut records = setup(board, 0);
    for _ in 0..WORK {
        records.push(register(0x1_0000 + 4 * random.below(16_384), random.below(u32::MAX)));
    }
    Load { name, unit: "record", board, memory: no_ops, records }
}

/// Valid entries for pages of all of memory on a locked board. A0000h-BFFFFh and the last 512 KiB are protected, a
/// thirteenth of it, whose entries are refused.
fn locked_table_writes(name: &'static str, board: Board, random: &mut Random) -> Load {
    let mut records = setup(board, 0);
    config(&mut records, 0, 0x70, 1, 0x6E);
    for _ in 0..WORK {
        let entry = random.below(MEMORY as u32) & !(PAGE - 1) | [0b001, 0b111][random.below(2) as usize];
        records.push(register(0x1_0000 + 4 * random.below(16_384), entry));
    }
    Load { name, unit: "record", board, memory: no_ops, records }
}

fn configuration_writes(random: &mut Random) -> Load {
    // Plain registers of both devices, the window's base and the SMRAM register with graphics on.
    const REGISTERS: [(u32, u32, u8); 6] =
        [(0, 0x92, 2), (0, 0x80, 1), (1, 0x3C, 1), (1, 0x10, 4), (1, 0xE0, 2), (0, 0x70, 1)];
    let mut records = setup(PRIVATE, 0);
    while records.len() < WORK {
        let (device, at, width) = REGISTERS[random.below(6) as usize];
        let data = if at == 0x70 { 0x40 | random.below(64) & !2 } else { random.below(u32::MAX) };
        config(&mut records, device, at, width, data);
    }
    Load { name: "configuration writes", unit: "record", board: PRIVATE, memory: no_ops, records }
}

fn plain_access(random: &mut Random, write: bool) -> Load {
    let mut records = Vec::new();
    for _ in 0..WORK {
        let (offset, width) = random.place(7 << 20);
        let address = (1 << 20) + offset;
        records.push(match write {
            true => Record::write(address, width, random.below(u32::MAX), false),
            false => Record::read(address, width, false),
        });
    }
    let name = if write { "memory writes" } else { "memory reads" };
    Load { name, unit: "record", board: PRIVATE, memory: noise, records }
}

/// Reads of main memory from this address on, with a register of device 0 written before: PAMR or FDHC.
fn steered_reads(name: &'static str, register: (u32, u32), from: u32, bytes: u32, random: &mut Random) -> Load {
    let mut records = Vec::new();
    config(&mut records, 0, register.0, 1, register.1);
    for _ in 0..WORK {
        let (offset, width) = random.place(bytes);
        records.push(Record::read(from + offset, width, false));
    }
    Load { name, unit: "record", board: PRIVATE, memory: noise, records }
}

/// Everything, about as often as each comes in a driver's life.
fn mixed(random: &mut Random) -> Load {
    let mut records = setup(PRIVATE, 1024);
    records.push(register(0x2000, 0x31));
    records.push(register(0x203C, 511 << 12 | 1));
    while records.len() < WORK {
        let (offset, width) = random.place(4 << 20);
        match random.below(16) {
            0..=4 => records.push(Record::read(WINDOW + offset, width, false)),
            5..=7 => records.push(Record::write(WINDOW + offset, width, random.below(u32::MAX), false)),
            8 | 9 => records.push(Record::read(offset, width, random.below(2) == 0)),
            10 => records.push(Record::write(offset, width, random.below(u32::MAX), false)),
            11 => records.push(Record::master_read(offset, width)),
            12 => records.push(Record::master_write(offset, width, random.below(u32::MAX))),
            13 => records.push(register(0x1_0000 + 4 * random.below(1024), random.below(8 << 20) | 1)),
            14 => {
                let head = random.below(2 << 20) & !7;
                records.push(register(0x2034, head));
                records.push(register(0x2030, (head + 8 * random.below(16)) % (2 << 20)));
                records.push(Record::run(random.below(16)));
            }
            _ => config(&mut records, 0, 0x92, 2, random.below(u32::MAX)),
        }
    }
    Load { name: "mixed list", unit: "record", board: PRIVATE, memory: mixed_opcodes, records }
}

fn loads() -> Vec<Load> {
    let random = &mut Random(82_810);
    // Valid fences of 512 KiB and pitch 512 to 2048 over the first 4 MiB.
    let fences: Vec<u32> = (0..8).map(|i| i << 19 | (2 + i % 3) << 4 | 1).collect();
    let count = WORK as u32;
    vec![
        window_reads("window reads, no fence", PRIVATE, &[], random),
        window_reads("window reads, one fence of 4 MiB", PRIVATE, &[0x321], random),
        window_reads("window reads, two fences of 2 MiB", PRIVATE, &[0x0000_0221, 0x0020_0231], random),
        window_reads("window reads, eight fences", PRIVATE, &fences, random),
        runs("no-ops, budget 1", PRIVATE, no_ops, 1, count),
        runs("no-ops, budget 8", PRIVATE, no_ops, 8, count),
        runs("no-ops, whole ring", PRIVATE, no_ops, u32::MAX, 2),
        runs("mixed opcodes, budget 1", PRIVATE, mixed_opcodes, 1, count),
        runs("mixed opcodes, budget 8", PRIVATE, mixed_opcodes, 8, count),
        runs("mixed opcodes, whole ring", PRIVATE, mixed_opcodes, u32::MAX, 2),
        table_writes("table writes", PRIVATE, random),
        configuration_writes(random),
        plain_access(random, false),
        plain_access(random, true),
        mixed(random),
        Load { name: "no records", unit: "call", board: PRIVATE, memory: no_ops, records: Vec::new() },
        window_reads("window reads, no fence, table in memory", MAIN, &[], random),
        window_reads("window reads, eight fences, table in memory", MAIN, &fences, random),
        runs("no-ops, budget 1, table in memory", MAIN, no_ops, 1, count),
        runs("no-ops, whole ring, table in memory", MAIN, no_ops, u32::MAX, 2),
        runs("mixed opcodes, budget 1, table in memory", MAIN, mixed_opcodes, 1, count),
        runs("mixed opcodes, whole ring, table in memory", MAIN, mixed_opcodes, u32::MAX, 2),
        table_writes("table writes, table in memory", MAIN, random),
        window_reads("window reads, no fence, display cache", CACHED, &[], random),
        window_reads("window reads, eight fences, display cache", CACHED, &fences, random),
        runs("no-ops, budget 1, display cache", CACHED, no_ops, 1, count),
        runs("no-ops, whole ring, display cache", CACHED, no_ops, u32::MAX, 2),
        runs("mixed opcodes, whole ring, display cache", CACHED, mixed_opcodes, u32::MAX, 2),
        locked_table_writes("table writes, locked", PRIVATE, random),
        locked_table_writes("table writes, locked, table in memory", MAIN, random),
        steered_reads("shadow reads", (0x51, 0x55), 0xC_0000, 256 << 10, random),
        steered_reads("memory reads, hole on", (0x58, 0x80), 1 << 20, 7 << 20, random),
    ]
}

/// Whether the caches hold the memory when a replay starts.
#[derive(Clone, Copy, PartialEq, Eq)]
enum Caches {
    Warm,
    Cold,
}

/// The buffers of one measurement.
struct Bench {
    rounds: u32,
    eviction: Vec<u64>,
}

impl Bench {
    /// The least time of each: the proved call's and the reference's. Rounds go on until so many in a
    /// row have brought no better time, or ten times as many in all.
    fn measure(&mut self, load: &Load, caches: Caches) -> (Duration, Duration) {
        let board = load.board.number();
        let pristine = (load.memory)(&mut Random(1));
        let records = record::encode(&load.records);
        // Both are copies: fresh zeros are all one page until they are written, and reading them cools no cache.
        let (mut memory, mut other) = (pristine.clone(), pristine.clone());
        let display_lent = &pristine[..load.board.display_bytes()];
        let (mut display, mut other_display) = (display_lent.to_vec(), display_lent.to_vec());
        let mut answers = vec![0; records.len()];
        let mut other_answers = answers.clone();
        let mut best = (Duration::MAX, Duration::MAX);
        let mut without_better = 0;
        for round in 0..=10 * self.rounds {
            self.prepare(caches, [&memory, &display]);
            let started = Instant::now();
            assert_eq!(call::gmch_replay(board, &mut memory, &records, &mut answers, &mut display), 0);
            let proved = started.elapsed();

            self.prepare(caches, [&other, &other_display]);
            let started = Instant::now();
            let result = reference::replay(board, &mut other, &records, &mut other_answers, &mut other_display);
            let plain = started.elapsed();

            assert_eq!(result, 0);
            if round == 0 {
                // The first round warms and is not counted.
                let same = answers == other_answers && memory == other && display == other_display;
                assert!(same, "the two replays differ: {}", load.name);
                continue;
            }
            without_better = if proved < best.0 || plain < best.1 { 0 } else { without_better + 1 };
            best = (best.0.min(proved), best.1.min(plain));
            if without_better == self.rounds {
                break;
            }
        }
        best
    }

    /// Reads the memory and the display cache, or so much else that the caches have forgotten them.
    fn prepare(&mut self, caches: Caches, memories: [&[u8]; 2]) {
        match caches {
            Caches::Warm => {
                for memory in memories {
                    black_box(memory.iter().step_by(64).fold(0, |sum: u8, &byte| sum.wrapping_add(byte)));
                }
            }
            Caches::Cold => {
                for word in self.eviction.iter_mut().step_by(8) {
                    *word = word.wrapping_add(1);
                }
                black_box(&self.eviction);
            }
        }
    }
}

/// Records, completed steps where the load is a parser's, or the one call.
fn units(load: &Load) -> u64 {
    match load.unit {
        "record" => return load.records.len() as u64,
        "call" => return 1,
        _ => {}
    }
    let mut memory = (load.memory)(&mut Random(1));
    let mut display = memory[..load.board.display_bytes()].to_vec();
    let records = record::encode(&load.records);
    let mut answers = vec![0; records.len()];
    reference::replay(load.board.number(), &mut memory, &records, &mut answers, &mut display);
    let runs = load.records.iter().zip(record::decode_answers(&answers));
    runs.filter(|(record, _)| record.kind() == Some(Kind::Run)).map(|(_, answer)| u64::from(answer.count)).sum()
}

fn main() {
    let rounds = std::env::var("MITROPHEL_ROUNDS").ok().and_then(|text| text.parse().ok()).unwrap_or(DEFAULT_ROUNDS);
    let mut bench = Bench { rounds, eviction: vec![0; EVICTION / 8] };
    println!("Proved call and reference: the same records, the same process, in turn. Each time is the best of at");
    println!("least {rounds} rounds; rounds go on until {rounds} in a row have brought no better one.");
    println!(
        "Reference built with opt-level 3{}.",
        if cfg!(debug_assertions) { " WITHOUT --release" } else { ", --release" }
    );
    println!(
        "Warm: memory ({} MiB) read just before. Cold: {} MiB of other memory written just before.",
        MEMORY >> 20,
        EVICTION >> 20
    );
    println!("A load's time includes its setup records. Nanoseconds for each record, parser step or call:\n");
    println!("{:<44} {:<7} {:>8} {:>8} {:>6}   {:>8} {:>8} {:>6}", "", "", "warm", "", "", "cold", "", "");
    println!(
        "{:<44} {:<7} {:>8} {:>8} {:>6}   {:>8} {:>8} {:>6}",
        "load", "unit", "proved", "Rust", "ratio", "proved", "Rust", "ratio"
    );
    let wanted: Vec<String> = std::env::args().skip(1).collect();
    for load in
        loads().into_iter().filter(|load| wanted.is_empty() || wanted.iter().any(|part| load.name.contains(part)))
    {
        let units = units(&load) as f64;
        print!("{:<44} {:<7}", load.name, load.unit);
        for caches in [Caches::Warm, Caches::Cold] {
            let (proved, plain) = bench.measure(&load, caches);
            let (proved, plain) = (proved.as_nanos() as f64 / units, plain.as_nanos() as f64 / units);
            let gap = if caches == Caches::Cold { "  " } else { "" };
            print!("{gap} {proved:>8.2} {plain:>8.2} {:>6.2}", proved / plain);
        }
        println!();
    }
}

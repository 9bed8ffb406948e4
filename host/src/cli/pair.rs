//! The proved call with the reference beside it.
//!
//! The answers and the memories are the proved call's. The reference replays the same records one at a
//! time, so that each answer can be explained; the two must agree in every answer and in every byte of
//! main memory and of the display cache.

use super::failure::Failure;
use super::load::Lent;
use super::names::{self, Bases};
use super::told;
use mitrophel::call::gmch_replay;
use mitrophel::record::{self, RECORD_BYTES};
use mitrophel::reference::{Gmch, Observer, Rule, TableWord, Touch, WordUse, TABLE_WORDS};
use mitrophel::{Answer, Board, Kind, Record, Refusal, Target};
use std::ops::Range;

/// The proved call, or what a test puts in its place.
pub type Call = fn(u32, &mut [u8], &[u8], &mut [u8], &mut [u8]) -> u32;

/// What the reference did with the last record.
#[derive(Default)]
pub struct Heard {
    /// The rule by which its address was routed.
    rule: Option<Rule>,
    /// It read or wrote protected memory.
    protected: bool,
    /// The last place in main memory that it read or wrote, unless the display cache came after it.
    last: Option<u32>,
    /// The last word of a table in main memory that it asked for.
    word: Option<TableWord>,
}

impl Observer for Heard {
    fn routed(&mut self, rule: Rule) {
        self.rule = Some(rule);
    }

    fn touched(&mut self, touch: Touch) {
        self.protected |= touch.protected;
        self.last = Some(touch.address);
    }

    /// An address of the display cache is none of main memory.
    fn display_touched(&mut self, _: Touch) {
        self.last = None;
    }

    fn table_word(&mut self, word: TableWord) {
        self.word = Some(word);
    }
}

impl Heard {
    /// The table word in main memory by which the record was to be translated.
    fn looked_up(&self) -> Option<TableWord> {
        self.word.filter(|word| word.by == WordUse::Lookup)
    }
}

/// The reference that stands beside the proved call.
pub type Hub<'m> = Gmch<'m, Heard>;

/// One record with its answer, and what there is to say about it.
pub struct Step<'a, 'm> {
    /// From 0, in this call.
    pub index: usize,
    pub record: Record,
    pub answer: Answer,
    /// The rule that routed it, if it came so far.
    pub rule: Option<Rule>,
    /// It read or wrote protected memory.
    pub protected: bool,
    /// Its value is not for everybody: it is of protected memory, of memory that is guarded, or was to be
    /// written there.
    pub secret: bool,
    /// A table word of such memory translated it, or was refused as an entry: the page that it names is not for
    /// everybody.
    pub secret_page: bool,
    /// The word of a table in main memory that it asked for last, reached or not.
    pub word: Option<TableWord>,
    /// What the names stood for when the record came.
    pub bases: Bases,
    /// What the register holds that the record wrote.
    pub now: Option<u32>,
    /// The reference after the record.
    pub hub: &'a Hub<'m>,
}

/// A board under the proved call and under the reference.
pub struct Pair {
    board: Board,
    call: Call,
    proved: Lent,
    beside: Lent,
    /// A disagreement is told without values.
    hidden: bool,
    /// Memory whose values are never for everybody.
    guarded: Vec<Range<u32>>,
}

impl Pair {
    /// A board whose memories are given twice.
    pub fn new(board: Board, lent: [Lent; 2]) -> Pair {
        Pair::by(board, lent, gmch_replay)
    }

    /// The same, with this call in the proved one's place.
    pub fn by(board: Board, lent: [Lent; 2], call: Call) -> Pair {
        let [proved, beside] = lent;
        Pair { board, call, proved, beside, hidden: false, guarded: Vec::new() }
    }

    /// The same, but a disagreement is told without values, any of which may be a key's.
    pub fn without_values(self) -> Pair {
        Pair { hidden: true, ..self }
    }

    /// The same, but values of this memory are never for everybody, whatever SMRAM protects.
    pub fn guarding(self, guarded: Vec<Range<u32>>) -> Pair {
        Pair { guarded, ..self }
    }

    /// The memories as the proved call left them.
    pub fn lent(&self) -> &Lent {
        &self.proved
    }

    /// The same, where nothing more is replayed.
    pub fn into_lent(self) -> Lent {
        self.proved
    }

    /// The same, and the reference's.
    pub fn into_both(self) -> [Lent; 2] {
        [self.proved, self.beside]
    }

    /// Makes one call and gives its answers. `each` is told every record.
    pub fn replay<E>(&mut self, records: &[u8], each: E) -> Result<Vec<u8>, Failure>
    where
        E: FnMut(&Step<'_, '_>) -> Result<(), Failure>,
    {
        self.both(records, each, |_| ()).map(|(answers, ())| answers)
    }

    /// Makes one call and gives what `look` sees in the reference after it.
    pub fn look<T>(&mut self, records: &[u8], look: impl FnOnce(&Hub<'_>) -> T) -> Result<T, Failure> {
        self.both(records, |_| Ok(()), look).map(|(_, seen)| seen)
    }

    fn both<E, T>(
        &mut self,
        records: &[u8],
        mut each: E,
        look: impl FnOnce(&Hub<'_>) -> T,
    ) -> Result<(Vec<u8>, T), Failure>
    where
        E: FnMut(&Step<'_, '_>) -> Result<(), Failure>,
    {
        let mut answers = vec![0; records.len()];
        let Lent { memory, display } = &mut self.proved;
        match (self.call)(self.board.number(), memory, records, &mut answers, display) {
            0 => {}
            code => return Err(Failure::disagreement(format!("the proved call refused good arguments with {code}"))),
        }
        let mut table = Box::new([0; TABLE_WORDS]);
        let Lent { memory, display } = &mut self.beside;
        let mut hub = Gmch::observed(self.board, memory, &mut table, display, Heard::default())
            .ok_or_else(|| Failure::disagreement("the reference refuses a board that the proved call takes"))?;
        for (index, (record, answer)) in record::decode(records).zip(record::decode_answers(&answers)).enumerate() {
            let bases = Bases::of(&hub);
            let beside = hub.answer(&record);
            let heard = std::mem::take(hub.observer());
            let guard = Guard { hub: &hub, guarded: &self.guarded };
            let secret = guard.hides_value(&record, &answer, &heard, bases);
            let secret_word = heard.looked_up().map(|word| guard.has(word.address));
            if answer != beside {
                // The proved call may have reached what the reference keeps shut.
                let leaked = match answer.target() {
                    // It may have taken the one memory for the other.
                    Some(Target::Memory | Target::DisplayCache) => guard.has(answer.address.into()),
                    Some(Target::MemoryMapped) => guard.has_what_is_meant(&record, bases),
                    _ => false,
                };
                let value = self.hidden || secret || leaked;
                let by_word = match heard.rule {
                    Some(Rule::Window) => self.hidden || secret_word != Some(false),
                    // A refused store has no address: what the call has there may be of the word.
                    Some(Rule::Registers) => value && answer.code != 0,
                    _ => false,
                };
                let page = by_word && self.board.table_in_memory();
                // A refusal's address is a window offset: the reference's is one, the other may be anything.
                let pages = [page, page && beside.code == 0];
                return Err(different_answers(index, &record, bases, [&answer, &beside], Hidden { value, pages }));
            }
            let secret_page = secret_word == Some(true) && names_a_page(&answer, &heard);
            let Heard { rule, protected, word, .. } = heard;
            let now = register_now(&mut hub, &record, &answer);
            each(&Step { index, record, answer, rule, protected, secret, secret_page, word, bases, now, hub: &hub })?;
        }
        let seen = look(&hub);
        self.compare_memory()?;
        Ok((answers, seen))
    }

    fn compare_memory(&self) -> Result<(), Failure> {
        let (proved, beside) = (&self.proved, &self.beside);
        let memories =
            [("memory", &proved.memory, &beside.memory), ("the display cache", &proved.display, &beside.display)];
        let Some((name, proved, beside)) = memories.into_iter().find(|(_, proved, beside)| proved != beside) else {
            return Ok(());
        };
        let at = proved.iter().zip(beside).position(|(proved, beside)| proved != beside).unwrap_or_default();
        // The bytes may be the key's, and the message is to be sent to somebody.
        Err(Failure::disagreement(format!("{LOUD} about {name}: byte {at:X}h differs\n{ADVICE}")))
    }
}

/// Whether an answer, or what is to be said of it, holds the page that the table word names, or the word itself.
fn names_a_page(answer: &Answer, heard: &Heard) -> bool {
    let by_entry = match answer.refusal() {
        None => matches!(answer.target(), Some(Target::Memory | Target::DisplayCache)),
        Some(Refusal::EntryNotValid | Refusal::EntryType | Refusal::PageProtected | Refusal::PageAboveMemory) => true,
        Some(_) => false,
    };
    by_entry && heard.word.is_some_and(|word| word.refusal.is_none())
}

/// Memory whose values are not for everybody: what is protected, and what is guarded.
struct Guard<'a, 'm> {
    hub: &'a Hub<'m>,
    guarded: &'a [Range<u32>],
}

impl Guard<'_, '_> {
    /// Whether an address, which may be past 32 bits, is of such memory.
    fn has(&self, address: u64) -> bool {
        let guards = |address| self.hub.protected(address) || self.guarded.iter().any(|range| range.contains(&address));
        u32::try_from(address).is_ok_and(guards)
    }

    /// Whether a record's value is of such memory. A write that is refused has a value too, one of management mode
    /// that went elsewhere, be it to the display cache, was meant for it, and the word that the parser does not know is
    /// shown.
    fn hides_value(&self, record: &Record, answer: &Answer, heard: &Heard, bases: Bases) -> bool {
        match record.kind() {
            Some(Kind::Run) if answer.refusal() != Some(Refusal::UnknownInstruction) => heard.protected,
            Some(kind) if kind.is_write() && (answer.code != 0 || record.is_management() && heard.last.is_none()) => {
                self.has_what_is_meant(record, bases)
            }
            // It may have read a table word, which is not its value.
            Some(Kind::DataRead | Kind::CodeRead) if answer.code != 0 => false,
            _ => heard.protected || heard.last.is_some_and(|address| self.has(address.into())),
        }
    }

    /// Whether an access may have been meant for such memory: its own address or, of a register of the table, the
    /// word's in main memory.
    fn has_what_is_meant(&self, record: &Record, bases: Bases) -> bool {
        let own = match record.address {
            // The HSEG stands for A0000h to BFFFFh.
            high @ 0xFEEA_0000..=0xFEEB_FFFF => high - 0xFEEA_0000 + 0xA_0000,
            address => address,
        };
        let entry = bases.register_offset(record.address).and_then(names::entry_at);
        let word = entry.and_then(|entry| self.hub.table_word_address(entry as usize));
        word.into_iter().chain([own.into()]).any(|start| self.has(start) || self.has(start + 3))
    }
}

const LOUD: &str = "THE PROVED CALL AND THE REFERENCE DISAGREE";
const ADVICE: &str = "Trust neither answer. Nothing was written. Please report the records with this message.";

/// What of two answers may be the key's.
#[derive(Clone, Copy)]
struct Hidden {
    value: bool,
    /// The address of each, which a table word gave.
    pages: [bool; 2],
}

/// The two answers, without what may be the key's.
fn different_answers(index: usize, record: &Record, bases: Bases, both: [&Answer; 2], hidden: Hidden) -> Failure {
    let shown = |answer: &Answer, hidden_page| {
        let value = if hidden.value { 0 } else { answer.value };
        let address = if hidden_page { 0 } else { answer.address };
        let answer = Answer { value, address, ..*answer };
        let bytes = answer.to_bytes().map(|byte| format!("{byte:02X} "));
        format!("{}({answer})", bytes.concat())
    };
    let [proved, beside] = [0, 1].map(|of| shown(both[of], hidden.pages[of]));
    let note = match hidden {
        Hidden { pages: [true, _], .. } => {
            "\n  Values of protected memory, and addresses from a table there, are shown as 0."
        }
        Hidden { value: true, .. } => "\n  Values of protected memory are shown as 0.",
        _ => "",
    };
    Failure::disagreement(format!(
        "{LOUD} at record {} of the call: {}\n  proved call {proved}\n  reference   {beside}{note}\n{ADVICE}",
        index + 1,
        told::asked(record, bases, hidden.value),
    ))
}

/// What the register holds that a record just wrote. Reading a register changes nothing.
fn register_now(hub: &mut Hub<'_>, record: &Record, answer: &Answer) -> Option<u32> {
    if answer.code != 0 || !matches!(answer.target(), Some(Target::Register | Target::MemoryMapped)) {
        return None;
    }
    let read = match record.kind()? {
        Kind::IoWrite => Record::io_read(record.address, record.width),
        Kind::Write => Record::read(record.address, record.width, record.is_management()),
        _ => return None,
    };
    let value = hub.answer(&read).value;
    *hub.observer() = Heard::default();
    Some(value)
}

/// Cuts a list into calls of at most 65,535 records: the length in bytes of the first call.
///
/// A call is a cold start, and so is a reset but for memory, which both leave. So a list may be cut in
/// front of a reset record, which stays the first of its call and is answered there as it would have
/// been in a single one.
pub fn first_call(records: &[u8]) -> Option<usize> {
    if records.len() / RECORD_BYTES <= record::MAX_RECORDS {
        return Some(records.len());
    }
    let resets = record::decode(records).enumerate().take(record::MAX_RECORDS + 1).skip(1);
    resets.filter(|(_, record)| *record == Record::reset()).last().map(|(index, _)| index * RECORD_BYTES)
}

/// Calls to put in the proved one's place: the reference's, each with a fault.
#[cfg(test)]
pub mod wrong {
    use mitrophel::faults::{Fault, OneFault};
    use mitrophel::reference::{self, Unobserved};

    macro_rules! calls {
        ($($(#[doc = $doc:literal])* $name:ident: $fault:ident,)*) => {
            $($(#[doc = $doc])*
            pub fn $name(
                board: u32,
                memory: &mut [u8],
                records: &[u8],
                answers: &mut [u8],
                display: &mut [u8],
            ) -> u32 {
                let fault = OneFault::new(Fault::$fault);
                reference::replay_with(board, memory, records, answers, display, Unobserved, fault)
            })*
        };
    }

    calls! {
        /// Reaches protected memory through the window.
        leaking: ProtectionNotChecked,
        /// Reaches it by an address at which the reference does not.
        opening: HsegOpensCompatibleRange,
        unlocking: LockDoesNotHold,
        /// Translates by a table word in protected memory.
        translating: LookupReadsProtectedWords,
        /// Reads a table word in protected memory by its register.
        reading: RegisterReadsProtectedWords,
        /// Reads main memory where an entry leads into the display cache.
        confusing: DisplayReadFromMemory,
        /// Stores an entry of a protected page after the lock.
        storing: ForbiddenEntryStored,
        /// Answers such a store with the page.
        naming: Code16ShowsPage,
        /// And with the word.
        telling: Code16ShowsWord,
    }
}

#[cfg(test)]
mod tests {
    use super::super::failure::Status;
    use super::super::load::Memory;
    use super::super::trace;
    use super::*;

    fn memory(board: Board) -> [Lent; 2] {
        [(); 2].map(|()| Memory::zeros(board, 8 << 20).fresh())
    }

    /// Answers as the proved call does, but leaves a byte of memory other than it should.
    fn scribbling(board: u32, memory: &mut [u8], records: &[u8], answers: &mut [u8], display: &mut [u8]) -> u32 {
        let result = gmch_replay(board, memory, records, answers, display);
        memory[0x1234] ^= 1;
        result
    }

    /// The same with a byte of the display cache.
    fn painting(board: u32, memory: &mut [u8], records: &[u8], answers: &mut [u8], display: &mut [u8]) -> u32 {
        let result = gmch_replay(board, memory, records, answers, display);
        display[0xA_0000] ^= 1;
        result
    }

    /// Answers as the proved call does, but where it refuses the address is a word of the page at A0000h.
    fn pointing(board: u32, memory: &mut [u8], records: &[u8], answers: &mut [u8], display: &mut [u8]) -> u32 {
        let result = gmch_replay(board, memory, records, answers, display);
        for answer in answers.as_chunks_mut::<RECORD_BYTES>().0.iter_mut().filter(|answer| answer[0] != 0) {
            answer[4..8].copy_from_slice(&memory[0xA_0FFC..0xA_1000]);
        }
        result
    }

    fn refusing(_: u32, _: &mut [u8], _: &[u8], _: &mut [u8], _: &mut [u8]) -> u32 {
        1
    }

    fn smram(value: u32) -> [Record; 2] {
        [Record::io_write(0xCF8, 4, 0x8000_0070), Record::io_write(0xCFC, 1, value)]
    }

    #[test]
    fn a_different_answer_is_told_loudly() {
        let mut records = smram(0x42).to_vec();
        records.extend(smram(0x00));
        records.push(Record::io_read(0xCFC, 1));
        let records = record::encode(&records);
        let mut seen = 0;
        let mut count = |_: &Step<'_, '_>| {
            seen += 1;
            Ok(())
        };
        let mut pair = Pair::by(Board::I82810, memory(Board::I82810), wrong::unlocking);
        let failure = pair.replay(&records, &mut count).expect_err("a faulty call");
        assert_eq!(failure.status, Status::Disagreement);
        assert!(failure.message.contains("DISAGREE at record 5 of the call: in1 CONFIG_DATA"), "{}", failure.message);
        assert_eq!(seen, 4);
        Pair::new(Board::I82810, memory(Board::I82810)).replay(&records, |_| Ok(())).expect("the two agree");
    }

    #[test]
    fn a_different_byte_of_memory_is_told_loudly() {
        let mut pair = Pair::by(Board::I82810, memory(Board::I82810), scribbling);
        let failure = pair.replay(&[], |_| Ok(())).expect_err("a scribbling call");
        assert_eq!(failure.status, Status::Disagreement);
        assert!(failure.message.contains("about memory: byte 1234h differs"), "{}", failure.message);
        let failure = Pair::by(Board::I82810, memory(Board::I82810), scribbling)
            .look(&[], |hub| hub.tom())
            .expect_err("the same");
        assert_eq!(failure.status, Status::Disagreement);
        let failure = Pair::by(Board::I82810, memory(Board::I82810), refusing)
            .replay(&[], |_| Ok(()))
            .expect_err("a refusing call");
        assert_eq!(failure.status, Status::Disagreement);
    }

    #[test]
    fn a_different_byte_of_the_display_cache_is_told_loudly() {
        for board in [Board::Dc100, Board::Dc100Main] {
            let failure =
                Pair::by(board, memory(board), painting).replay(&[], |_| Ok(())).expect_err("a painting call");
            assert_eq!(failure.status, Status::Disagreement);
            let part = "DISAGREE about the display cache: byte A0000h differs\n";
            assert!(failure.message.contains(part), "{}", failure.message);
        }
    }

    /// The key at A0ABCh of main memory, read by an entry of the display cache's page A0000h.
    #[test]
    fn a_key_that_the_call_takes_for_the_display_cache_is_not_shown() {
        let list =
            "config write dev0.SMRAM 4Ch\nconfig write dev1.GMADR C0000000h\nconfig write dev1.MMADR F0000000h\n\
                    config write dev1.PCICMD 2\nwrite PGTBL_CTL 300001h\nwrite DRT 1\nwrite GTT[0] A0003h\n\
                    read4 WINDOW+ABCh\n";
        let records = trace::assemble(list).expect("a trace").records;
        for board in [Board::Dc100, Board::Dc100Main] {
            let lent = memory(board).map(|mut lent| {
                lent.memory[0xA_0000..0xA_1000].fill(0x5A);
                lent
            });
            let failure =
                Pair::by(board, lent, wrong::confusing).replay(&records, |_| Ok(())).expect_err("a leaking call");
            assert_eq!(failure.status, Status::Disagreement);
            let message = failure.message;
            assert!(message.contains("DISAGREE at record 12 of the call: read4 WINDOW+ABCh\n"), "{message}");
            assert!(message.contains("shown as 0") && !message.contains("5A"), "{message}");
        }
    }

    #[test]
    fn a_key_that_only_the_call_reaches_is_not_shown() {
        let mut records = smram(0x10).to_vec();
        records.push(Record::read(0xA_0000, 4, true));
        let memory = memory(Board::I82810).map(|mut lent| {
            lent.memory[0xA_0000..0xA_0004].fill(0x5A);
            lent
        });
        let mut pair = Pair::by(Board::I82810, memory, wrong::opening);
        let failure = pair.replay(&record::encode(&records), |_| Ok(())).expect_err("a leaking call");
        assert!(failure.message.contains("DISAGREE at record 3 of the call"), "{}", failure.message);
        assert!(failure.message.contains("shown as 0") && !failure.message.contains("5A"), "{}", failure.message);
    }

    /// The words of a table in main memory are the key's, each a good entry.
    #[test]
    fn a_key_that_only_the_call_takes_for_a_table_is_not_shown() {
        let setup =
            "config write dev0.SMRAM 4Ch\nconfig write dev1.GMADR C0000000h\nconfig write dev1.MMADR F0000000h\n\
                     config write dev1.PCICMD 2\nwrite PGTBL_CTL A0001h\n";
        let key: [u8; 4] = 0x005A_5001_u32.to_le_bytes();
        let accesses: [(&str, Call); 3] = [
            ("read4 WINDOW+ABCh", wrong::translating),
            ("smm write4 WINDOW+ABCh 7", wrong::translating),
            ("read GTT[1]", wrong::reading),
        ];
        for (access, call) in accesses {
            let records = trace::assemble(&format!("{setup}{access}\n")).expect("a trace").records;
            for hidden in [false, true] {
                let memory = memory(Board::I82810Main).map(|mut lent| {
                    lent.memory[0xA_0000..0xA_1000].as_chunks_mut().0.fill(key);
                    lent
                });
                let pair = Pair::by(Board::I82810Main, memory, call);
                let mut pair = if hidden { pair.without_values() } else { pair };
                let failure = pair.replay(&records, |_| Ok(())).expect_err("a leaking call");
                assert_eq!(failure.status, Status::Disagreement);
                assert!(failure.message.contains("DISAGREE at record 10 of the call"), "{}", failure.message);
                for part in ["005A5", "5A5001", "5A5ABC", "50 5A 00", "5A 5A 00"] {
                    assert!(!failure.message.contains(part), "{access}: {}", failure.message);
                }
                assert!(failure.message.contains("shown as 0"), "{}", failure.message);
            }
        }
    }

    /// A0000h-BFFFFh is protected at another time, and a word that would be stored there is not for everybody.
    #[test]
    fn a_store_that_the_call_does_not_refuse_so_is_told_without_the_word() {
        let list = "config write dev0.SMRAM 76h\nconfig write dev1.MMADR F0000000h\nconfig write dev1.PCICMD 2\n\
                    write PGTBL_CTL A0001h\nwrite GTT[18] 7A5001h\n";
        let records = trace::assemble(list).expect("a trace").records;
        for (board, guarded) in [(Board::I82810, false), (Board::I82810Main, true), (Board::Dc100Main, true)] {
            for call in [wrong::storing as Call, wrong::naming, wrong::telling] {
                let mut pair =
                    Pair::by(board, memory(board), call).guarding(vec![0xA_0000..0xB_0000, 0xB_0000..0xC_0000]);
                let message = pair.replay(&records, |_| Ok(())).expect_err("a wrong answer").message;
                let statement = if guarded { "write GTT[18] \u{B7}\u{B7}\n" } else { "write GTT[18] 007A5001h\n" };
                assert!(message.contains(&format!("DISAGREE at record 8 of the call: {statement}")), "{message}");
                for part in ["7A5", "50 7A"].iter().filter(|_| guarded) {
                    assert!(!message.contains(part), "{part}: {message}");
                }
                assert_eq!(message.contains("shown as 0"), guarded, "{message}");
            }
        }
    }

    /// Both offsets are told; but where the table's words are the key's, what the call has in its place may be one.
    #[test]
    fn a_different_offset_is_told_without_the_key() {
        let setup =
            "config write dev0.SMRAM 4Ch\nconfig write dev1.GMADR C0000000h\nconfig write dev1.MMADR F0000000h\n\
                     config write dev1.PCICMD 2\nwrite PGTBL_CTL A0001h\nread4 WINDOW+12ABCh\n";
        let records = trace::assemble(setup).expect("a trace").records;
        // 12000h, the page's offset; and a key.
        for (board, code, word, call, hidden) in [
            (Board::I82810, 4, 0x1_2000_u32, "00 20 01 00 ", false),
            (Board::I82810Main, 6, 0x005A_1001, "00 00 00 00 ", true),
        ] {
            let memory = memory(board).map(|mut lent| {
                lent.memory[0xA_0000..0xA_1000].as_chunks_mut().0.fill(word.to_le_bytes());
                lent
            });
            let failure = Pair::by(board, memory, pointing).replay(&records, |_| Ok(())).expect_err("a wrong offset");
            assert_eq!(failure.status, Status::Disagreement);
            let message = failure.message;
            assert!(message.contains("DISAGREE at record 10 of the call: read4 WINDOW+12ABCh\n"), "{message}");
            assert!(message.contains(&format!("\n  proved call {code:02X} 00 00 00 {call}00 ")), "{message}");
            assert!(message.contains(&format!("\n  reference   {code:02X} 00 00 00 BC 2A 01 00 00 ")), "{message}");
            assert!(message.contains(", address 12ABCh)"), "{message}");
            assert_eq!(message.contains(", address 12000h)"), !hidden, "{message}");
            assert!(!message.contains("5A"), "{message}");
            assert_eq!(message.contains("addresses from a table there, are shown as 0."), hidden, "{message}");
        }
    }

    fn list(length: usize, resets: &[usize]) -> Vec<u8> {
        let mut records = vec![Record::read(0, 4, false); length];
        for &at in resets {
            records[at] = Record::reset();
        }
        record::encode(&records)
    }

    #[test]
    fn a_list_is_cut_in_front_of_the_last_reset_that_fits() {
        assert_eq!(first_call(&[]), Some(0));
        assert_eq!(first_call(&list(65_535, &[7])), Some(65_535 * 16));
        assert_eq!(first_call(&list(65_536, &[])), None);
        assert_eq!(first_call(&list(65_536, &[0])), None);
        assert_eq!(first_call(&list(65_536, &[1])), Some(16));
        assert_eq!(first_call(&list(65_536, &[1, 500])), Some(500 * 16));
        assert_eq!(first_call(&list(65_537, &[65_535])), Some(65_535 * 16));
        assert_eq!(first_call(&list(65_537, &[65_536])), None);
    }

    /// Cutting keeps every answer, the resets' too, and all of memory.
    #[test]
    fn a_cut_list_has_the_answers_of_the_whole_list() {
        let mut records: Vec<Record> = Vec::new();
        for round in 0..40 {
            records.extend(smram(0x40 + 0x10 * (round % 4)));
            records.push(Record::write(0x1000 + 4 * (round % 8), 4, round, false));
            records.push(Record::read(0x1000, 4, false));
            records.push(Record::read(0x7F_FFFC, 4, round % 2 == 0));
            records.push(Record::io_read(0xCFC, 1));
            records.push(Record::reset());
            records.push(Record::io_read(0xCF8, 4));
        }
        let bytes = record::encode(&records);
        let mut whole = Pair::new(Board::I82810, memory(Board::I82810));
        let expected = whole.replay(&bytes, |_| Ok(())).expect("the two agree");
        let mut cut = Pair::new(Board::I82810, memory(Board::I82810));
        let mut answers = Vec::new();
        let resets = (0..records.len()).filter(|&at| records[at] == Record::reset());
        let edges: Vec<usize> = [0].into_iter().chain(resets).chain([records.len()]).collect();
        for edge in edges.windows(2) {
            answers.extend(cut.replay(&bytes[16 * edge[0]..16 * edge[1]], |_| Ok(())).expect("the two agree"));
        }
        assert!(answers == expected);
        assert!(cut.lent() == whole.lent());
    }
}

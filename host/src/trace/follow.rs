//! What the names of a trace stand for, record after record.
//!
//! `WINDOW` and the memory-mapped registers move with GMADR and MMADR. A reference hub is given every
//! record that can change those, so that the names follow document 01 to the letter: a write to device
//! 1 while graphics is off, say, changes nothing. Writing and reading a trace follow the same records,
//! which is why the one undoes the other.

use super::names::{self, Bases};
use crate::board::Board;
use crate::call::MOST_MEMORY;
use crate::record::{self, Kind, Record};
use crate::reference::{Gmch, Lsmm, Table, TABLE_WORDS};
use std::collections::BTreeSet;

/// What the followed hub stands on. No name depends on the board or on the length of its memory.
pub struct Ground {
    memory: Vec<u8>,
    table: Box<Table>,
}

impl Ground {
    /// A ground for one follower.
    pub fn new() -> Ground {
        Ground::with_memory(8 << 20)
    }

    /// The same with a memory of this length, which must be one that a board can have.
    pub fn with_memory(bytes: usize) -> Ground {
        Ground { memory: vec![0; bytes], table: Box::new([0; TABLE_WORDS]) }
    }
}

impl Default for Ground {
    fn default() -> Ground {
        Ground::new()
    }
}

/// A hub that is given configuration accesses and resets only.
///
/// ```
/// use mitrophel::{record, trace};
/// use mitrophel::trace::follow::{Follower, Ground};
///
/// let setup = trace::assemble("config write dev0.SMRAM 40h\nconfig write dev1.MMADR F0000000h\n")?;
/// let mut ground = Ground::new();
/// let mut follower = Follower::new(&mut ground);
/// record::decode(&setup.records).for_each(|record| follower.note(&record));
/// assert_eq!(follower.bases().registers, 0xF000_0000);
/// # Ok::<(), trace::Errors>(())
/// ```
pub struct Follower<'m> {
    hub: Gmch<'m>,
}

impl<'m> Follower<'m> {
    /// A follower at cold start.
    pub fn new(ground: &'m mut Ground) -> Follower<'m> {
        let hub = Gmch::new(Board::I82810, &mut ground.memory, &mut ground.table, &mut []);
        Follower { hub: hub.expect("a length that a memory can have") }
    }

    /// What the names stand for at the next record.
    pub fn bases(&self) -> Bases {
        Bases::of(&self.hub)
    }

    /// The hub, whose configuration registers are right but for SMRAM's error bit.
    pub fn hub(&self) -> &Gmch<'m> {
        &self.hub
    }

    /// Takes note of a record.
    pub fn note(&mut self, record: &Record) {
        if matches!(record.kind(), Some(Kind::IoWrite | Kind::Reset)) {
            self.hub.answer(record);
        }
    }
}

/// Whether a list of records holds values that a listing leaves out: it is not for everybody.
///
/// ```
/// use mitrophel::trace::{self, follow};
///
/// let key = trace::assemble("config write dev0.SMRAM 4Eh\nsmm write4 A0000h 4B455921h\n")?;
/// assert!(follow::holds_secrets(&key.records));
/// assert!(!follow::holds_secrets(&key.records[..32]));
/// # Ok::<(), trace::Errors>(())
/// ```
pub fn holds_secrets(records: &[u8]) -> bool {
    let records: Vec<Record> = record::decode(records).collect();
    let guard = Guard::of(&records);
    let mut ground = Ground::new();
    let mut follower = Follower::new(&mut ground);
    records.iter().any(|record| {
        follower.note(record);
        guard.hides(record, &follower)
    })
}

/// Places whose values are not for everybody: those that SMRAM protects at some time of a list, on a board of some
/// kind with some length of memory. The TSEG is at the end of memory, whose length is a multiple of 8 MiB and at most
/// 1,024 MiB.
#[derive(Clone, Debug, Default)]
pub struct Guard {
    low: bool,
    /// The largest TSEG.
    tseg: u32,
    /// Where the list puts the translation table, on a board that has it in main memory: each value of PGTBL_CTL's bits
    /// 31:12 by which a word of the table may lie in such a place.
    tables: Vec<u32>,
}

impl Guard {
    /// Configuration writes and resets decide what is protected, PGTBL_CTL where the table is.
    pub fn of(records: &[Record]) -> Guard {
        let mut ground = Ground::new();
        let mut follower = Follower::new(&mut ground);
        let mut guard = Guard::default();
        let mut tables = BTreeSet::new();
        for record in records {
            tables.extend(table_put(record, follower.bases()));
            follower.note(record);
            guard.low |= follower.hub.protected(0xA_0000);
            guard.tseg = guard.tseg.max(follower.hub.smram().tseg_bytes());
        }
        // A table is smaller than such a place, so its first or its last word lies there if any does.
        let ends = |table| [u64::from(table), u64::from(table) + u64::from(4 * (names::ENTRY_COUNT - 1))];
        tables.retain(|&table| ends(table).into_iter().any(|word| guard.low(word) || guard.tseg(word)));
        guard.tables = tables.into_iter().collect();
        guard
    }

    fn low(&self, address: u64) -> bool {
        self.low && (0xA_0000..0xC_0000).contains(&address)
    }

    fn tseg(&self, address: u64) -> bool {
        const STEP: u64 = 8 << 20;
        address < MOST_MEMORY as u64 && address % STEP >= STEP - u64::from(self.tseg)
    }

    /// Whether what a record writes is left out of a listing: what management mode writes to such a place, and
    /// what anybody writes to A0000h-BFFFFh while that is open to all. A write of a table entry is one of its word, too,
    /// wherever the list puts the table at some time; words in A0000h-BFFFFh are open while that is not protected.
    pub fn hides(&self, record: &Record, follower: &Follower<'_>) -> bool {
        let own = match record.address {
            // The HSEG stands for A0000h to BFFFFh.
            high @ 0xFEEA_0000..=0xFEEB_FFFF => high - 0xFEEA_0000 + 0xA_0000,
            address => address,
        };
        let hidden = |place: u64, open: bool| {
            record.is_management() && (self.low(place) || self.tseg(place)) || open && self.low(place)
        };
        let entry = follower.bases().register_offset(record.address).and_then(names::entry_at);
        let by_word = |entry: u32| {
            let open = !follower.hub.protected(0xA_0000);
            self.tables.iter().any(|&table| hidden(u64::from(table) + u64::from(4 * entry), open))
        };
        match record.kind() {
            Some(Kind::Write) if entry.is_some_and(by_word) => true,
            Some(Kind::Write | Kind::MasterWrite) => hidden(own.into(), follower.hub.smram().lsmm() == Lsmm::General),
            _ => false,
        }
    }
}

/// Where a record puts the translation table, if it writes PGTBL_CTL: "word i is at 2020h bits 31:12 plus 4i".
fn table_put(record: &Record, bases: Bases) -> Option<u32> {
    let control = bases.register_offset(record.address) == Some(names::PGTBL_CTL);
    (control && record.kind() == Some(Kind::Write)).then_some(record.data & 0xFFFF_F000)
}

#[cfg(test)]
mod tests {
    use super::*;
    use crate::record::decode;
    use crate::trace::assemble;

    /// The two sides of each edge of what SMRAM protects.
    #[test]
    fn protected_places_follow_smram() {
        let low = [0xA_0000, 0xB_FFFF, 0xFEEA_0000, 0xFEEB_FFFF];
        let small = [0x78_0000, 0x7F_FFFF, 0x207F_FFFF, 0x3FF8_0000, 0x3FFF_FFFF];
        let large = [0x70_0000, 0xF0_0000, 0x3FF0_0000];
        let never =
            [0x9_FFFF, 0xC_0000, 0x6F_FFFF, 0x80_0000, 0x8A_0000, 0x3FEF_FFFF, 0x407F_FFFF, 0xFEE9_FFFF, 0xFEEC_0000];
        for (smram, low_is, small_is, large_is) in [
            (0x00, false, false, false),
            (0x04, false, false, false),
            (0x08, true, false, false),
            (0x4E, true, false, false),
            (0x10, true, false, false),
            (0x1C, true, false, false),
            (0x20, true, true, false),
            (0x24, false, true, false),
            (0xBE, true, true, true),
            (0x30, true, true, true),
        ] {
            // Protected now, earlier and later are one.
            let list = format!("config write dev0.SMRAM 0\nconfig write dev0.SMRAM {smram}\nreset\n");
            let records: Vec<Record> = decode(&assemble(&list).expect("a trace").records).collect();
            let guard = Guard::of(&records);
            let mut ground = Ground::new();
            let follower = Follower::new(&mut ground);
            let ranges = [(&low[..], low_is), (&small, small_is), (&large, large_is), (&never, false)];
            for (addresses, expected) in ranges {
                for &address in addresses {
                    let hides = |management| guard.hides(&Record::write(address, 4, 7, management), &follower);
                    assert_eq!(hides(true), expected, "SMRAM {smram:02X}h, {address:X}h");
                    assert!(!hides(false), "what others write is shown while it goes elsewhere");
                }
            }
        }
    }

    /// The key may be put in place by anybody while A0000h is open.
    #[test]
    fn an_open_place_that_is_protected_later_is_guarded() {
        for (last, expected) in [("4Eh", true), ("44h", false)] {
            let list = format!("config write dev0.SMRAM 44h\nconfig write dev0.SMRAM {last}\n");
            let records: Vec<Record> = decode(&assemble(&list).expect("a trace").records).collect();
            let guard = Guard::of(&records);
            let mut ground = Ground::new();
            let mut follower = Follower::new(&mut ground);
            records[..2].iter().for_each(|record| follower.note(record));
            for record in [Record::write(0xA_0000, 4, 7, false), Record::master_write(0xB_FFFC, 4, 7)] {
                assert_eq!(guard.hides(&record, &follower), expected, "{record}");
            }
            assert!(!guard.hides(&Record::write(0x9_FFFC, 4, 7, false), &follower));
        }
    }

    /// The list's guard, and whether it hides this record at the list's end.
    fn hides_after(list: &str, record: &Record) -> bool {
        let records: Vec<Record> = decode(&assemble(list).expect("a trace").records).collect();
        let mut ground = Ground::new();
        let mut follower = Follower::new(&mut ground);
        records.iter().for_each(|record| follower.note(record));
        Guard::of(&records).hides(record, &follower)
    }

    /// What is written to an entry goes to memory on some boards: to protected places of management mode's writes,
    /// and to A0000h-BFFFFh of anybody's while that is not protected.
    #[test]
    fn a_table_in_a_protected_place_is_guarded() {
        let setup = "config write dev0.SMRAM 7Ch\nconfig write dev1.MMADR F0000000h\nconfig write dev1.PCICMD 2\n";
        let open = ["config write dev0.SMRAM 44h\n", "config write dev0.SMRAM 40h\n"];
        let entry = |number: u32, management| Record::write(0xF001_0000 + 4 * number, 4, 0x4B45_5921, management);
        for (table, number, guarded) in [
            ("A0000h", 0, true),
            ("B0001h", 16_383, true),
            ("9F000h", 1023, false),
            ("9F000h", 1024, true),
            ("BF000h", 1023, true),
            ("BF000h", 1024, false),
            ("700000h", 0, true),
            ("6FF000h", 1023, false),
            ("6FF000h", 1024, true),
            ("3FFFF000h", 1023, true),
            ("3FFFF000h", 1024, false),
            ("407FF000h", 0, false),
            ("FFFFF000h", 1024, false),
            ("200000h", 0, false),
        ] {
            let list = format!("{setup}write PGTBL_CTL {table}\n");
            assert_eq!(hides_after(&list, &entry(number, true)), guarded, "{table} {number}");
            assert!(!hides_after(&list, &entry(number, false)), "{table} {number}: it is refused");
            // Five digits: A0000h-BFFFFh.
            let low = guarded && table.len() == 6;
            for open in open {
                let list = format!("{list}{open}");
                assert_eq!(hides_after(&list, &entry(number, true)), guarded, "{table} {number}");
                assert_eq!(hides_after(&list, &entry(number, false)), low, "{table} {number}");
            }
            // The table moves on, and the list may do so on a board where the register was not there.
            let moved = format!("{list}{}write PGTBL_CTL 200000h\n", open[0]);
            assert_eq!(hides_after(&moved, &entry(number, false)), low, "{table} {number}");
        }
        let list = format!("{setup}write PGTBL_CTL A0000h\n{}", open[0]);
        assert!(hides_after(&list, &Record { width: 2, ..entry(0, false) }));
        for other in [entry(16_384, true), Record::master_write(0xF001_0000, 4, 7), Record::read(0xF001_0000, 4, true)]
        {
            assert!(!hides_after(&list, &other), "{other}");
        }
    }
}

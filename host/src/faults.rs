//! Deliberate faults for the mutation check.
//!
//! A test that compares two replays is worth what it would notice. Each [`Fault`] makes the
//! reference wrong in one way that a careful reader of the papers could still fall into; the
//! mutation check asks that the random comparison notices every one. The reference asks for its
//! faults through a type parameter, so [`Faultless`] leaves nothing of them in the compiled code.

/// Which faults a replay has.
pub trait Faults {
    /// Whether this fault is present.
    fn has(&self, fault: Fault) -> bool;

    /// Notes a user interrupt that the mask held back ([`Fault::MaskedInterruptStaysPending`]).
    #[inline(always)]
    fn hold_interrupt(&mut self) {}

    /// Takes the note back.
    #[inline(always)]
    fn take_interrupt(&mut self) -> bool {
        false
    }
}

/// No fault: the reference itself.
#[derive(Clone, Copy, Debug, Default)]
pub struct Faultless;

impl Faults for Faultless {
    #[inline(always)]
    fn has(&self, _: Fault) -> bool {
        false
    }
}

/// Exactly one fault.
#[cfg(feature = "faults")]
#[derive(Clone, Copy, Debug)]
pub struct OneFault {
    fault: Fault,
    held: bool,
}

#[cfg(feature = "faults")]
impl OneFault {
    /// The reference with this fault.
    pub const fn new(fault: Fault) -> OneFault {
        OneFault { fault, held: false }
    }
}

#[cfg(feature = "faults")]
impl Faults for OneFault {
    #[inline]
    fn has(&self, fault: Fault) -> bool {
        self.fault == fault
    }

    fn hold_interrupt(&mut self) {
        self.held = true;
    }

    fn take_interrupt(&mut self) -> bool {
        std::mem::take(&mut self.held)
    }
}

macro_rules! faults {
    ($($(#[doc = $doc:literal])* $name:ident,)*) => {
        /// One way of being wrong. The comment says what the faulty replay does.
        #[derive(Clone, Copy, Debug, PartialEq, Eq)]
        pub enum Fault { $($(#[doc = $doc])* $name,)* }

        impl Fault {
            /// Every fault.
            pub const ALL: &[Fault] = &[$(Fault::$name,)*];
        }
    };
}

faults! {
    // Records and answers.
    /// Code 2 is given where 13 also holds.
    WidthBeforeLayout,
    /// An access that is not aligned to its own width is refused even inside one word.
    NaturalAlignmentAsked,
    /// The interrupt line is the one before the access.
    LineBeforeAccess,
    /// A refusal's answer has no interrupt line.
    RefusalWithoutLine,

    // Configuration space.
    /// A 1-byte or 2-byte access to CF8h reaches the register.
    NarrowConfigAddressAccepted,
    /// Device 1 answers while GMS is 00.
    DeviceOneAlwaysVisible,
    /// Write-once holds for each byte by itself.
    WriteOncePerByte,
    /// GMADR bit 25 counts in a window of 64 MiB.
    Bit25Counts,
    /// GMADR bit 25 reads as written in a window of 64 MiB.
    Bit25Reads,
    /// The lock does not hold SMRAM.
    LockDoesNotHold,
    /// The write that sets the lock leaves SMRAM's other bits.
    LockingWriteTakesNothingElse,
    /// The error bit is stored as written.
    ErrorBitPlain,
    /// No access sets the error bit once SMRAM is locked.
    ErrorBitFrozenByLock,
    /// Reset leaves a locked SMRAM.
    ResetKeepsLock,
    /// Reset leaves the translation table.
    ResetKeepsTable,

    // Address map.
    /// HSEG acts whatever LSMM is.
    HsegActsBesideLsmm,
    /// Management mode reaches A0000h-BFFFFh while HSEG acts.
    HsegOpensCompatibleRange,
    /// Under LSMM 10 management data reads reach memory too.
    ManagementDataReadsOpened,
    /// Under LSMM 10 management code reads do not reach memory.
    ManagementCodeReadsShut,
    /// Hub masters reach A0000h-BFFFFh under LSMM 11.
    MastersReachManagementMemory,
    /// A0000h-BFFFFh goes to VGA with graphics off.
    VgaWithoutGraphics,
    /// Management mode reaches taken memory.
    ManagementReachesTakenMemory,
    /// The error bit is set for taken memory.
    ErrorForTakenMemory,
    /// The error bit is set for hub masters.
    ErrorForMasters,
    /// The error bit is set for reads only.
    ErrorForReadsOnly,
    /// The window is found before the registers.
    WindowBeforeRegisters,
    /// A window at address 0 is taken for none.
    WindowAtZeroIgnored,

    // Memory-mapped registers.
    /// An access inside a listed register counts as the register.
    PartOfRegisterAccepted,
    /// An entry of the private table keeps all 32 bits.
    EntryStoredWhole,

    // Translation.
    /// Translation does not look at protection.
    ProtectionNotChecked,
    /// Protection is asked of the window offset and not of the entry's page.
    ProtectionOfOffset,
    /// Management mode reaches protected pages through the window.
    ManagementExemptInWindow,
    /// Pages are protected only once SMRAM is locked.
    ProtectedOnlyWhenLocked,
    /// Taken memory is protected.
    TakenMemoryProtected,
    /// The last page below TOM is refused with code 7.
    LastPageRefused,
    /// An invalid entry of type 01 or 10 is refused with code 5 and not 4.
    TypeBeforeValid,
    /// Codes 4 and 5 are exchanged.
    Codes4And5Exchanged,
    /// Code 3 is given where 9 also holds.
    TranslationBeforeFence,
    /// Entries of type 11 are refused with code 5.
    Type11Refused,

    // The table in main memory: request 10 of document 02.
    /// Board kind 2 has a private table.
    PrivateTableOnKind2,
    /// Board kind 3 has a private table.
    PrivateTableOnKind3,
    /// Board kind 2 has the ids of the DC100, and kind 3 those of the 82810.
    NewBoardIdsExchanged,
    /// A word's address wraps at 32 bits.
    TableAddressWraps,
    /// The table's base is 2020h bits 31:16.
    TableBaseOf64KiB,
    /// The last word below TOM is refused with code 7.
    LastWordRefused,
    /// Every word is refused with code 7 where the table's last one is at or above TOM.
    WholeTableBelowTop,
    /// A lookup whose word is at or above TOM is refused with code 4.
    WordAboveMemoryNotValid,
    /// Protection is asked of the table's first word alone.
    ProtectionOfTableBase,
    /// A word in taken memory is refused with code 6.
    TakenWordRefused,
    /// A word in C0000h-FFFFFh is refused with code 6.
    BiosWordRefused,
    /// A lookup reads a word in protected memory.
    LookupReadsProtectedWords,
    /// The parser's lookup reads a word in protected memory.
    FetchReadsProtectedWords,
    /// A register read reads a word in protected memory.
    RegisterReadsProtectedWords,
    /// A register write writes a word in protected memory.
    RegisterWritesProtectedWords,
    /// A register read of management mode reads a word in protected memory.
    ManagementReadsProtectedWords,
    /// A register access that is refused because its word is protected sets the error bit.
    ProtectedWordSetsError,
    /// The word's 7 and 6 come before 3.
    WordBeforeTranslationOff,
    /// The word's 6 comes after the entry's own codes.
    EntryBeforeWord,
    /// The word's 7 and 6 come before 10.
    WordBeforeExactness,
    /// With translation off a register access is refused with code 3.
    TranslationOffStopsRegisters,
    /// A register read masks the word.
    MemoryWordReadMasked,
    /// A register write stores all 32 bits.
    MemoryWordStoredWhole,
    /// A register access that reaches its word is answered with target 1 and the word's address.
    WordAnsweredAsMemory,
    /// A word's bits 31:30 count in its page.
    HighEntryBitsCount,
    /// A word in which bits 31:30 and 11:3 are not zero is refused with code 4.
    UnnamedEntryBitsRefused,
    /// Lookups see what register writes stored, and no other write.
    LookupsSeeRegisterWritesOnly,
    /// A reset zeroes the words.
    ResetClearsWords,
    /// A reset leaves 2020h.
    ResetKeepsTableControl,

    // No bad entries after the lock: request 9 of document 02. A forbidden entry is one that gets code 16.
    /// Forbidden entries are stored, as document 01 has it.
    ForbiddenEntryStored,
    /// Entries are forbidden whether SMRAM is locked or not.
    ForbiddenWithoutLock,
    /// Entries are forbidden until SMRAM is locked, and not from then on.
    ForbiddenUntilLocked,
    /// With the lock set every table write is refused with code 16.
    LockedTableClosed,
    /// Data with bits 31:30 set is stored: they count in its page.
    ForbiddenHighBitsCount,
    /// Data with bits 11:3 set is stored: its low twelve bits are not those of type 00 or 11.
    ForbiddenLowBitsCount,
    /// An entry that is not valid is forbidden, too.
    InvalidEntryForbidden,
    /// Entries of type 00 are not forbidden.
    Type00NotForbidden,
    /// Entries of type 11 are not forbidden.
    Type11NotForbidden,
    /// Entries of type 01 are forbidden, too.
    Type01Forbidden,
    /// Entries of type 10 are forbidden, too.
    Type10Forbidden,
    /// A page at or above TOM is forbidden, too.
    PageAboveMemoryForbidden,
    /// A page of taken memory is forbidden, too.
    TakenPageForbidden,
    /// A page of A0000h-BFFFFh is forbidden whatever LSMM and USMM are.
    OpenRangeForbidden,
    /// A page of the last 1 MiB is forbidden whatever USMM is.
    LastMebibyteForbidden,
    /// The page before protected memory is forbidden, too.
    PageBeforeForbidden,
    /// The page after protected memory is forbidden, too.
    PageAfterForbidden,
    /// The first page of protected memory is not forbidden.
    FirstPageNotForbidden,
    /// The last page of protected memory is not forbidden.
    LastPageNotForbidden,
    /// Pages of the TSEG are not forbidden.
    TsegNotForbidden,
    /// Pages of A0000h-BFFFFh are not forbidden.
    CompatibleRangeNotForbidden,
    /// Pages of A0000h-BFFFFh are not forbidden where HSEG acts.
    HsegNotForbidden,
    /// Pages of A0000h-BFFFFh are not forbidden where LSMM is 10.
    CodeReadsOnlyNotForbidden,
    /// Bits 28:12 alone of the page are looked at.
    ForbiddenOf29Bits,
    /// The window offset of the entry is looked at and not its page.
    ForbiddenByOffset,
    /// Management mode stores forbidden entries.
    ManagementStoresForbidden,
    /// Forbidden entries are stored in a table in main memory.
    ForbiddenInPrivateTableOnly,
    /// Forbidden entries are stored in the private table.
    ForbiddenInMainMemoryOnly,
    /// Forbidden entries are stored on board kinds 1 and 3.
    ForbiddenOn82810Only,
    /// Forbidden entries are stored while translation is off.
    ForbiddenNeedsTranslation,
    /// Forbidden entries are stored where the window does not reach.
    ForbiddenInWindowOnly,
    /// A forbidden entry is stored where the same one is already.
    SameEntryStored,
    /// A forbidden entry is ignored, and the write is answered.
    ForbiddenIgnored,
    /// A forbidden entry is stored with its valid bit cleared.
    ForbiddenStoredInvalid,
    /// A forbidden entry is refused with code 6.
    ForbiddenIsCode6,
    /// A forbidden entry is refused, and stored in the private table all the same.
    ForbiddenEntryLands,
    /// A forbidden entry is refused, and stored in main memory all the same.
    ForbiddenWordLands,
    /// A forbidden entry is refused, and what was there is cleared.
    ForbiddenClearsEntry,
    /// A forbidden entry sets the error bit.
    ForbiddenSetsError,
    /// Code 16 comes before code 10, of the data as it is.
    ForbiddenBeforeExactness,
    /// Code 16 comes before code 10, where the bytes written would make a forbidden entry of what is there.
    ForbiddenBytesBeforeExactness,
    /// Code 16 comes before 7 and 6 of the word.
    ForbiddenBeforeWord,
    /// Code 16 comes after 7 of the word, but before 6.
    ForbiddenBeforeProtectedWord,
    /// A read of a forbidden entry is refused with code 16.
    ForbiddenReadRefused,
    /// A forbidden entry reads 0.
    ForbiddenReadsZero,
    /// The write that sets the lock clears the forbidden entries of the private table.
    LockDropsEntries,
    /// With the lock set, protection is not checked where an entry of the private table is used.
    LockEndsCheckAtUse,
    /// With the lock set, protection is not checked where an entry of a table in main memory is used.
    LockEndsCheckOfWords,
    /// With the lock set, the use of an entry whose page is protected is refused with code 16.
    UseAfterLockIsCode16,
    /// An ordinary write of the processor that makes a table word a forbidden entry is refused with code 16.
    OrdinaryWriteForbidden,
    /// A hub master's write that makes a table word a forbidden entry is refused with code 16.
    MasterWriteForbidden,
    /// A write through the window that makes a table word a forbidden entry is refused with code 16.
    WindowWriteForbidden,
    /// Code 16 shows the register's offset.
    Code16ShowsOffset,
    /// Code 16 shows the page.
    Code16ShowsPage,
    /// Code 16 has the word as its value.
    Code16ShowsWord,
    /// Code 16 has target 5.
    Code16WithTarget,

    // Where it was refused: request 5 of document 02.
    /// A refused window access shows the start of its offset's page.
    PageOffsetShown,
    /// A refused window access shows the aligned word of its offset.
    WordOffsetShown,
    /// A refused window access shows its entry's number.
    EntryNumberShown,
    /// A refused window access shows the record's address.
    RecordAddressShown,
    /// A refused window access has target 1.
    RefusedWithTarget,
    /// Code 3 shows the offset before fencing.
    Code3BeforeFencing,
    /// Code 4 shows the offset before fencing.
    Code4BeforeFencing,
    /// Code 5 shows the offset before fencing.
    Code5BeforeFencing,
    /// Code 6 of an entry's page shows the offset before fencing.
    Code6BeforeFencing,
    /// Code 7 of an entry's page shows the offset before fencing.
    Code7BeforeFencing,
    /// Code 6 of a table word that a window access looks up shows the offset before fencing.
    Word6BeforeFencing,
    /// Code 7 of a table word that a window access looks up shows the offset before fencing.
    Word7BeforeFencing,
    /// Code 9 shows where the ill-formed fence would lead.
    Code9AfterFencing,
    /// Code 3 shows zero.
    Code3ShowsZero,
    /// Code 9 shows zero.
    Code9ShowsZero,
    /// Codes 7 and 6 of a table word that a window access looks up show zero.
    WordShowsZero,
    /// A refused write through the window shows zero.
    WriteShowsZero,
    /// A refused code read through the window shows zero.
    CodeReadShowsZero,
    /// A refused window access of management mode shows zero.
    ManagementShowsZero,
    /// Code 6 of a table word that a window access looks up shows what the protected word holds.
    ProtectedWordShown,
    /// A run refused with 3 to 7 shows the graphics offset of its fetch.
    FetchOffsetShown,
    /// A run refused with 8 shows the graphics offset of its fetch.
    OutsideOffsetShown,
    /// Code 10 shows the register's offset.
    Code10ShowsOffset,
    /// Codes 7 and 6 of a table word whose register is accessed show the register's offset.
    RegisterWordShowsOffset,
    /// Code 2 shows the offset of an address in the window.
    Code2ShowsOffset,
    /// Code 13 shows the offset of an address in the window.
    Code13ShowsOffset,

    // Power states that do not exist: request 3 of document 02.
    /// Every power state is stored.
    AnyStateStored,
    /// Power state 01 is stored.
    State01Stored,
    /// Power state 10 is stored.
    State10Stored,
    /// Power state 00 is discarded.
    State00Discarded,
    /// Power state 11 is discarded.
    State11Discarded,
    /// A write of one byte stores every power state.
    AnyStateStoredByOneByte,
    /// A write of two bytes stores every power state.
    AnyStateStoredByTwoBytes,
    /// A write of four bytes stores every power state.
    AnyStateStoredByFourBytes,
    /// A write with an unsupported power state leaves bit 8, too.
    WholeWriteDiscarded,
    /// An unsupported power state is stored as 00.
    DiscardedStateIs00,
    /// An unsupported power state is stored as 11.
    DiscardedStateIs11,
    /// A power state is discarded where bits 7:2 of the same byte are not zero.
    WholeByteIsState,
    /// A write that begins at E1h leaves bit 8 where its data would be an unsupported power state.
    StateLookedForAtE1,
    /// A write with an unsupported power state is answered by the hub.
    DiscardedWriteToHub,
    /// Reset leaves the power state and bit 8.
    ResetKeepsPowerState,
    /// Rules 7 and 8 do not act in power state 11.
    D3StopsDecoding,

    // One gibibyte: request 6 of document 02.
    /// The largest memory is 512 MiB.
    LargestMemory512Mib,
    /// The largest memory is 512 MiB on board kinds 0 and 1.
    OldBoardsHave512Mib,
    /// The largest memory is 1,016 MiB.
    LargestMemory1016Mib,
    /// A memory of 1,032 MiB is accepted.
    LargestMemory1032Mib,
    /// Of the memories above 512 MiB only 1,024 MiB is accepted.
    NothingBetween,
    /// A memory's length is rounded down to a multiple of 8 MiB.
    LengthRoundedDown,
    /// An entry keeps page bits 28:12.
    EntryBit29NotStored,
    /// A lookup uses page bits 28:12.
    EntryBit29NotUsed,
    /// An entry's page from 512 MiB up is refused with code 7.
    HighPageRefused,
    /// An entry's page is compared with TOM's bits 29:12, which are zero at 1,024 MiB.
    TopOf30Bits,
    /// Protection is asked of bits 28:12 of an entry's page.
    ProtectionOf29Bits,
    /// The parser's fetch from 512 MiB up is refused with code 7.
    HighFetchRefused,
    /// A table word from 512 MiB up is refused with code 7.
    HighWordRefused,
    /// Protection is asked of bits 28:0 of a table word's address.
    WordProtectionOf29Bits,
    /// The table's base is 2020h bits 29:12.
    TableBaseOf30Bits,
    /// U is counted from 512 MiB where memory is larger.
    UsableTopBelow512Mib,
    /// The TSEG ends at 512 MiB where memory is larger.
    TsegBelow512Mib,
    /// Hub masters reach memory below 512 MiB alone.
    MastersBelow512Mib,
    /// The registers are found before memory from 512 MiB up.
    RegistersOverMemory,
    /// The window is found before memory from 512 MiB up.
    WindowOverMemory,
    /// The registers and the window are found before rule 5.
    GraphicsOverTop,

    // Display cache: request 11 of document 02.
    /// Entry type 01 reaches a display cache on board kind 0.
    DisplayCacheOnKind0,
    /// Entry type 01 reaches a display cache on board kind 2.
    DisplayCacheOnKind2,
    /// Entry type 01 reaches the display cache whatever 3000h holds.
    DisplayCacheAlwaysOn,
    /// The display cache is on at cold start and after a reset.
    DisplayCacheOnByDefault,
    /// A page of type 01 at or above 4 MiB is refused with code 7 while the display cache is off.
    DisplayPageBeforeType,
    /// A page of type 01 is compared with TOM.
    DisplayPageBelowTom,
    /// A page of type 01 at 4 MiB is accepted.
    DisplayPageAtEndAccepted,
    /// The display cache's last page is refused with code 7.
    LastDisplayPageRefused,
    /// A page of the display cache is refused with code 6 where main memory's is protected.
    DisplayPageProtected,
    /// An entry of type 01 that is not valid reaches the display cache.
    InvalidEntryReachesDisplay,
    /// Entry type 10 reaches the display cache.
    Type10ReachesDisplay,
    /// Entry type 10 reaches main memory.
    Type10ReachesMemory,
    /// The parser's fetch by an entry of type 01 reads main memory.
    DisplayFetchReadsMemory,
    /// The parser's fetch by an entry of type 01 is refused with code 5.
    DisplayFetchRefused,
    /// A write to the display cache lands in main memory.
    DisplayWriteLandsInMemory,
    /// A read of the display cache reads main memory.
    DisplayReadFromMemory,
    /// An access to the display cache has target 1.
    DisplayAnsweredAsMemory,
    /// An access to the display cache shows the start of its page.
    DisplayAddressOfPage,
    /// Code 5 shows zero on the boards that have a display cache.
    DisplayOffShowsZero,
    /// Code 7 of a page of type 01 shows zero.
    DisplayPageShowsZero,
    /// 3000h to 3002h are listed on board kind 0.
    DisplayRegistersOnKind0,
    /// 3001h is listed on board kind 2.
    Register3001OnKind2,
    /// 3000h keeps all bits.
    DisplayControlKeepsAllBits,
    /// 3001h keeps bit 0 alone.
    Register3001KeepsBit0,
    /// 3002h keeps bits 4:0 alone.
    Register3002Keeps5Bits,
    /// 3001h defaults to 00h.
    Register3001DefaultsToZero,
    /// 3002h defaults to 00h.
    Register3002DefaultsToZero,
    /// Four bytes at 3000h reach the three registers.
    DisplayRegistersAsWord,
    /// Two bytes at 3001h reach 3001h and 3002h.
    DisplayRegistersAsHalf,
    /// Two bytes at 3002h reach 3002h.
    TwoBytesAt3002Accepted,
    /// An access to 3003h is refused with code 10.
    Byte3003Refused,
    /// Reset zeroes the display cache.
    ResetClearsDisplay,
    /// Reset leaves 3000h to 3002h.
    ResetKeepsDisplayRegisters,
    /// Board kinds 1 and 3 take no display cache, too.
    NoDisplayAccepted,
    /// Board kinds 1 and 3 take a display cache of more than 4 MiB, too.
    LongDisplayAccepted,
    /// Board kinds 0 and 2 take a display cache of 4 MiB, too.
    DisplayLentToOthers,

    // Shadow memory and the hole: request 8 of document 02.
    /// C0000h-FFFFFh goes to the hub whatever PAMR holds, as document 01 has it.
    ShadowIgnored,
    /// The low bit of a pair is of writes, and the high bit of reads.
    PairBitsExchanged,
    /// Either bit of a pair opens its segment to reads and to writes.
    EitherPairBitOpens,
    /// A segment is open where both bits of its pair are set, and else shut.
    BothPairBitsNeeded,
    /// PAMR bits 7:6 are those of C0000h-CFFFFh, and 1:0 those of F0000h-FFFFFh.
    SegmentsReversed,
    /// PAMR bits 1:0 are those of D0000h-DFFFFh, and so on; C0000h-CFFFFh has 7:6.
    SegmentsOneOff,
    /// A segment has 32 KiB: the pairs end at DFFFFh.
    SegmentsOf32KiB,
    /// A segment has 16 KiB: the pairs end at CFFFFh.
    SegmentsOf16KiB,
    /// A segment's first page is of the segment before, that of C0000h-CFFFFh of the hub.
    SegmentBeginsLate,
    /// A segment's last page is of the next segment, that of F0000h-FFFFFh of the hub.
    SegmentEndsEarly,
    /// DC000h-DFFFFh goes to the hub whatever PAMR holds.
    CdHoleActs,
    /// D8000h-DFFFFh goes to the hub whatever PAMR holds.
    D8HoleActs,
    /// Code reads in C0000h-FFFFFh go to the hub.
    CodeReadsNotShadowed,
    /// Management mode reaches memory in C0000h-FFFFFh whatever PAMR holds.
    ManagementAlwaysShadowed,
    /// Accesses of management mode in C0000h-FFFFFh go to the hub.
    ManagementNotShadowed,
    /// Hub masters' accesses in C0000h-FFFFFh go to the hub.
    MastersNotShadowed,
    /// Hub masters reach memory in C0000h-FFFFFh whatever PAMR holds.
    MastersAlwaysShadowed,
    /// Hub masters' writes in C0000h-FFFFFh go to the hub.
    MasterWritesNotShadowed,
    /// A write in C0000h-FFFFFh that goes to the hub reaches memory, too.
    HubWriteReachesMemory,
    /// A read in C0000h-FFFFFh that goes to the hub has the value of memory.
    HubReadGivesMemory,
    /// An access that reaches memory in C0000h-FFFFFh has target 3.
    ShadowAnsweredAsHub,
    /// An access that reaches memory in C0000h-FFFFFh shows its offset from C0000h.
    ShadowShowsOffset,
    /// C0000h-FFFFFh reaches the last 256 KiB of memory.
    ShadowAtTop,
    /// An access in C0000h-FFFFFh that goes to the hub sets the error bit.
    ShadowHubSetsError,
    /// A0000h-BFFFFh obeys PAMR bits 1:0 where it is not memory by rule 2.
    PamrCoversCompatible,
    /// PAMR bits 1:0 steer the 64 KiB from 100000h on, too.
    PamrCovers64KiBMore,
    /// PAMR is not written once SMRAM is locked.
    PamrLocked,
    /// PAMR keeps bits 5:4 and 1:0.
    PamrKeeps33,
    /// PAMR keeps bits 5:0.
    PamrKeeps3F,
    /// PAMR is FFh at cold start and after a reset.
    PamrDefaultsToFF,
    /// PAMR is 33h at cold start and after a reset.
    PamrDefaultsTo33,
    /// PAMR and FDHC take writes of one byte alone.
    ShadowRegistersTakeOneByte,
    /// Reset leaves PAMR.
    ResetKeepsPamr,
    /// Register 50h of device 0 keeps what is written.
    Register50Stored,
    /// Register 50h of device 0 reads 60h.
    Register50Reads60,
    /// A segment whose pair is 01 is protected.
    ReadOnlySegmentProtected,
    /// A read through the window of a page in C0000h-FFFFFh goes to the hub where PAMR sends reads there.
    WindowReadObeysPamr,
    /// A write through the window to a page in C0000h-FFFFFh goes to the hub where PAMR sends writes there.
    WindowWriteObeysPamr,
    /// The parser's fetch in C0000h-FFFFFh gets 0 where reads go to the hub.
    FetchObeysPamr,
    /// A lookup by a table word in C0000h-FFFFFh gets 0 where reads go to the hub.
    LookupObeysPamr,
    /// A register access to a table word in C0000h-FFFFFh is not carried out there where PAMR sends it to the hub.
    WordRegisterObeysPamr,
    /// There is no hole, whatever FDHC holds.
    HoleIgnored,
    /// The hole is E00000h-EFFFFFh.
    HoleAt14MiB,
    /// The hole is 1000000h-10FFFFFh.
    HoleAt16MiB,
    /// The hole is E00000h-FFFFFFh.
    HoleOf2MiB,
    /// The hole is F00000h-F7FFFFh.
    HoleOf512KiB,
    /// The hole begins one page late.
    HoleBeginsLate,
    /// The hole begins one page early.
    HoleBeginsEarly,
    /// The hole ends one page early.
    HoleEndsEarly,
    /// The hole ends one page late.
    HoleEndsLate,
    /// Memory ends where the hole begins: F00000h up to U goes to the hub.
    HoleEndsMemory,
    /// While there is a hole, an address from 16 MiB up to U reaches memory 1 MiB lower.
    HoleRemapped,
    /// The hole acts on reads alone.
    HoleForReadsOnly,
    /// The hole acts on writes alone.
    HoleForWritesOnly,
    /// The hole does not act on code reads.
    HoleNotForCode,
    /// The hole does not act in management mode.
    HoleNotForManagement,
    /// The hole does not act on hub masters.
    HoleNotForMasters,
    /// The hole acts on hub masters alone.
    HoleForMastersOnly,
    /// A hub master's access in the hole has target 0.
    MasterHoleUnanswered,
    /// The hole acts on the TSEG.
    HoleOverTseg,
    /// The hole acts on addresses at or above TOM.
    HoleAboveMemory,
    /// An address in the hole falls through to rules 6 to 9.
    HoleFallsThrough,
    /// An access of the processor in the hole sets the error bit.
    HoleSetsError,
    /// A hub master's access in the hole sets the error bit.
    MasterHoleSetsError,
    /// A write in the hole reaches memory, too.
    HoleWriteReachesMemory,
    /// A read in the hole has the value of memory.
    HoleReadGivesMemory,
    /// FDHC keeps all bits.
    HoleKeepsAllBits,
    /// FDHC keeps bit 0, which makes the hole.
    HoleByBit0,
    /// FDHC bit 7 is set by any write that is not 0.
    HoleByAnyBit,
    /// FDHC is not written once SMRAM is locked.
    HoleLocked,
    /// FDHC is 80h at cold start and after a reset.
    HoleByDefault,
    /// Reset leaves FDHC.
    ResetKeepsHole,
    /// The hole is protected.
    HoleProtected,
    /// An entry whose page is in the hole is refused with code 7.
    HolePageRefused,
    /// A read through the window of a page in the hole goes to the hub.
    WindowReadObeysHole,
    /// A write through the window to a page in the hole goes to the hub.
    WindowWriteObeysHole,
    /// The parser's fetch in the hole gets 0.
    FetchObeysHole,
    /// A lookup by a table word in the hole gets 0.
    LookupObeysHole,
    /// A register access to a table word in the hole is not carried out there.
    WordRegisterObeysHole,

    // Fences.
    /// The highest matching fence wins.
    HighestFenceWins,
    /// An ill-formed fence is passed over.
    IllFormedFenceSkipped,
    /// A start that is no multiple of the size is accepted.
    FenceStartNotChecked,
    /// Sixteen rows of a tile are taken for eight.
    TileOfEightRows,

    // Ring.
    /// The parser's fetch goes through the fences.
    FetchFenced,
    /// The wraps do not count up.
    WrapNotCounted,
    /// The wraps stop at 2,047.
    WrapsSaturate,
    /// The count includes the refused step.
    RefusedStepCounted,
    /// A step moves the head to the tail.
    StepConsumesRing,
    /// Head and tail that are equal but out of range end the run with code 0.
    EmptyBeforeRange,
    /// A run of budget 0 checks the ring.
    BudgetZeroChecks,
    /// The parser's window is always 64 MiB.
    ParserWindowAlways64,
    /// A run does nothing with graphics off.
    RunNeedsGraphics,
    /// The ring is one page shorter.
    RingPagesNotPlusOne,
    /// An instruction's bits 22:0 must be zero.
    InstructionLowBitsChecked,

    // Interrupts.
    /// A user interrupt sets the identity bit although the mask holds it back.
    MaskIgnored,
    /// A user interrupt that the mask held back is raised when the mask opens.
    MaskedInterruptStaysPending,
    /// A user interrupt sets the identity bit only if the enable bit is set.
    EnableGatesIdentity,
}

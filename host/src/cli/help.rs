//! What `--help` says.

/// Every command with its line in the overview and its help.
pub const COMMANDS: &[(&str, &str, &str)] = &[
    ("replay", "replay records on a board and explain each answer", REPLAY),
    ("asm", "turn a text trace into records", ASM),
    ("disasm", "turn records into a text trace", DISASM),
    ("state", "show what records leave in the hub's registers", STATE),
    ("map", "show where each address goes", MAP),
    ("audit", "replay many lists and count the refusals", AUDIT),
    ("compare", "replay with two keys and show what differs", COMPARE),
    ("demo", "a desk, its lobby picture and three earlier faults", DEMO),
    ("explain", "tell when a code is given, with an example that runs", EXPLAIN),
    ("completion", "print a shell's completion script", COMPLETION),
];

/// The help of a command.
pub fn of(command: &str) -> Option<&'static str> {
    COMMANDS.iter().find(|(name, _, _)| *name == command).map(|(_, _, help)| *help)
}

/// The help of the program.
pub fn overview() -> String {
    let commands: Vec<String> = COMMANDS.iter().map(|(name, line, _)| format!("  {name:<10} {line}\n")).collect();
    format!("{OVERVIEW}{}{GENERAL}", commands.concat())
}

const OVERVIEW: &str = "\
Usage: mitrophel COMMAND [OPTION].. [FILE]..
A machine-proved model of Intel's 82810 graphics hub: record lists written,
read, replayed and explained.

";

const GENERAL: &str = "
'mitrophel COMMAND --help' tells more, with an example; 'man mitrophel' has it
all. 'mitrophel --version' tells where the answers come from, with the SHA-256
of the proved archive in it and the toolchain that proved it.

Numbers are 4096, 0x1000 or 1000h, sizes 16M; FILE '-' is standard input.
Exit status: 0 done, 1 a check failed (audit --deny, replay --check, compare),
2 wrong command line, 3 malformed input, 4 a file cannot be read or written,
5 the proved call and the reference disagree, 141 the reader of the output
went away.

Start with:
  mitrophel demo
";

const REPLAY: &str = "\
Usage: mitrophel replay [OPTION].. FILE
Replay the records of FILE from a cold start, by the proved call, and print
each with its answer: what was accessed, where it went, by which rule, or the
refusal and why. An access that is refused in the window is told with the table
entry and the window offset, which the answer's address field holds; a write of
an entry of a protected page, refused once SMRAM is locked, with entry and page
as the record has them. A write that brings power state 01 or 10 to dev1.PM_CS
leaves the state as it was, and is told with 'discarded'. An access in
C0000h-FFFFFh is told with the bit of dev0.PAMR that takes it to memory or to
the hub, and one in the hole with dev0.FDHC. FILE is a text trace or the binary
form, told apart by its content; '-' is standard input.

  --check           compare the answers with what the trace expects, '#> ..'
                    beside or below a line; exit with 1 if one differs
  --bless           write the expectations of FILE anew, as the answers are; a
                    trace without any gets one for each line
  --reasons         with --bless: the rule or reason too, in parentheses
  --only KIND       print these records only; several with commas (see below)
  --lines           print the trace's line beside the record
  --json            print one JSON object for each record
  --csv             print comma-separated values, names in the first line
  --show-protected  show values of memory that is protected at some time of the
                    replay; they are '\u{B7}\u{B7}' otherwise
  --board NAME      82810 (default), dc100, 82810-main or dc100-main, or the
                    kind's number, 0 to 3; those in -main have the translation
                    table in main memory, at PGTBL_CTL's bits 31:12; dc100 and
                    dc100-main have a display cache of 4 MiB
  --memory SIZE     main memory: a multiple of 8M, 8M to 1G
                    (default: the image's length, else 8M)
  --image FILE      memory at the start, from address 0; the rest is zero
  --display FILE    display cache at the start, 4 MiB (default: zeros)
  --answers FILE    write the answers, 16 bytes each, and print nothing that no
                    other option asks for
  --dump FILE       write memory as it is afterwards; for its owner alone if
                    it holds bytes that were protected
  --redact          with --dump: zeros where memory was protected
  --dump-display FILE
                    write the display cache as it is afterwards; its bytes are
                    never protected
  --text, --binary  take FILE for a text trace, or for the binary form,
                    whatever its content
  --color WHEN      auto (default), always or never

Kinds for --only: refused, answered; a refusal's code or name as 'mitrophel
explain' lists them; memory, register, hub, vga, mmio, display, by where it
went; window, shadow (memory in C0000h-FFFFFh), hole, error, interrupt; io,
read, fetch, write, smm, master, run, reset.

The reasons come from a second replay, in ordinary Rust, beside the proved
call. Should the two ever disagree, the difference is told, nothing is written,
and the exit status is 5.

A call takes 65,535 records and is a cold start. A longer list is replayed in
several calls on the same memory, where that keeps its meaning: it is cut in
front of reset records, which leave what a cold start finds. A list that cannot
be cut so is refused.

Example: key memory is locked; a guest's read of it goes to the hub.
  printf 'config write dev0.SMRAM BEh\\nread4 700000h\\n' | mitrophel replay -
";

const ASM: &str = "\
Usage: mitrophel asm [OPTION].. FILE
Turn the text trace FILE ('-': standard input) into records of 16 bytes.

  -o, --output FILE  where the records go
                     (default: standard output, if it is no terminal)

One access a line; '#' starts a comment, and '#>' what is expected of the
line's access, or of the nearest one above. N is the width: 1, 2 or 4. Numbers
are 4096, 0x1000 or 1000h; a decimal address of 10 or more is warned of.
  inN PORT               outN PORT DATA            I/O
  readN PLACE            writeN PLACE DATA         processor data
  fetchN PLACE                                     processor code
  smm readN PLACE        smm fetchN, smm writeN    in management mode
  master readN PLACE     master writeN PLACE DATA  hub masters
  run BUDGET             reset                     parser run, reset
  raw B0 B1 .. B15                                 16 bytes in hexadecimal
Several records:
  config readN REGISTER  config writeN REGISTER DATA   CF8h, then CFCh
  entry I PAGE           entries I..J PAGE             valid table entries
  word PLACE DATA..      bytes PLACE BYTE..            memory is filled; also
  string PLACE \"TEXT\"                                 after smm or master
No record:
  set NAME DATA          include FILE                  a constant; a trace

PORT      a number, CONFIG_ADDRESS or CONFIG_DATA+n
PLACE     a number, WINDOW+n, MMIO+n, GTT[i], FENCE0 to FENCE7, PGTBL_CTL,
          LP_RING_TAIL, LP_RING_HEAD, LP_RING_START, LP_RING_LENGTH, IER, IIR,
          IMR, ISR, DRT, DRAMCL or DRAMCH; a register's name needs no width.
          The names stand at MMADR and GMADR as the records before have left
          them.
REGISTER  dev0.SMRAM, dev0.PAMR, dev0.FDHC, dev1.GMADR and so on, by the
          datasheet's symbols, which need no width, or its number in
          hexadecimal: dev0.70
DATA      a number, or an instruction of the ring parser: noop, user_interrupt
          or flush
BYTE      two hexadecimal digits, or a number to 255
TEXT      written as UTF-8 without a zero at its end; \\n, \\t, \\\\, \\\", \\0 and
          \\xHH stand for single bytes
NAME      two or more letters, digits and underscores; NAME and NAME+n then are
          numbers of every sort
FILE      in quotes if it has blanks; looked for in the folder of the trace
          that includes it, from standard input in the current one

Example:
  printf 'config write dev0.SMRAM BEh\\n' | mitrophel asm - | xxd
";

const DISASM: &str = "\
Usage: mitrophel disasm [OPTION].. FILE
Turn the records of FILE ('-': standard input) into a text trace. A record that
breaks the layout becomes a line of raw bytes.

  -o, --output FILE     where the trace goes (default: standard output)
      --no-macros       one line for each record
      --no-comments     statements only
      --show-protected  show what is written to places that are protected at
                        some time; it is '\u{B7}\u{B7}' otherwise

With --show-protected 'mitrophel asm' gives the same bytes back for every list,
and without it for every list that has no such write: of management mode, of
anybody while A0000h-BFFFFh is open, or of a table entry whose word is there on
some board. Comments say what a line shows alone: a value as it is written,
whether or not it gets there.

Example:
  mitrophel asm desk.trace -o desk.rec && mitrophel disasm desk.rec
";

const STATE: &str = "\
Usage: mitrophel state [OPTION].. FILE
Replay the records of FILE from a cold start and show what they leave: where
memory ends, where its hole is and what is protected, the registers by name
with their fields in words, the valid entries of the translation table and,
once SMRAM is locked, how many of them name protected pages, the ring's words
from head to tail, configuration space.
Words of memory that is protected at some time are '\u{B7}\u{B7}', those of a table
in main memory too. FILE is a text trace or the binary form, told apart by its
content; '-' is standard input.

  --lspci           configuration space alone, as 'lspci -F' reads it
  --board NAME      82810 (default), dc100, 82810-main, dc100-main
  --memory SIZE     main memory: a multiple of 8M, 8M to 1G
                    (default: the image's length, else 8M)
  --image FILE      memory at the start, from address 0; the rest is zero
  --display FILE    display cache at the start (boards dc100, dc100-main)
  --text, --binary  take FILE for a text trace, or for the binary form,
                    whatever its content
  --color WHEN      auto (default), always or never

The values are those of the replay in ordinary Rust beside the proved call,
with which it agrees record by record, or else the exit status is 5.

Example:
  mitrophel state --lspci desk.trace > desk.pci && lspci -F desk.pci -v
";

const MAP: &str = "\
Usage: mitrophel map [OPTION].. [FILE]
Show the address map in force: where each address goes for the processor, in
management mode, for hub masters, and for graphics through the translation
table; which ranges are protected; and on boards with a display cache whether
it is on and which entries reach it. It is the map of SMRAM, PAMR and FDHC as
given, or as the trace or records of FILE leave them ('-': standard input).
Where PAMR has reads and writes go different ways, a cell holds both:
'memory/hub' reads from memory and writes to the hub.

  --board NAME         82810 (default), dc100, 82810-main, dc100-main
  --memory SIZE        main memory: a multiple of 8M, 8M to 1G
                       (default: the image's length, else 8M)
  --image FILE         memory at the start
  --display FILE       display cache at the start (boards dc100, dc100-main)
  --svg FILE           draw the map as a picture too ('-': the picture alone)
  --color WHEN         auto (default), always or never
With FILE:
  --text, --binary     take it for a text trace, or for the binary form
Without FILE:
  --smram NUMBER       SMRAM as written (default 0)
  --pam BYTE           PAMR as written (default 0): from bit 0 up two bits for
                       each of C0000h, D0000h, E0000h and F0000h; the low one
                       has reads go to memory, the high one writes
  --hole               the hole at F00000h-FFFFFFh, below U: FDHC bit 7
  --window ADDRESS     GMADR, and device 1's memory enable
  --registers ADDRESS  MMADR, and device 1's memory enable
  --window-size SIZE   32M or 64M (default)

It is found by asking the proved call: a read by each of the first three, in
C0000h-FFFFFh a write too, after all reads, and a read through the window where
an entry names a page of a board with the same SMRAM, PAMR and FDHC, but
graphics on and no lock; protected is what that read is refused 6 for. The rule
numbers, and with them what sets the error bit, come from the reference, whose
answers are the same.

Example:
  mitrophel map --smram BEh --window C0000000h --svg map.svg
";

const AUDIT: &str = "\
Usage: mitrophel audit [OPTION].. FILE..
The night audit: replay every FILE ('-': standard input), call after call, each
on fresh memory, and print how often each code and each target was answered,
for codes 4 to 7 at which table entry most accesses through the window were
refused, and for 16 at which most writes of an entry were. A list of more than
65,535 records is cut in front of reset records, as 'mitrophel replay --help'
says. A bar shows the progress if standard error is a terminal.

  --deny KIND       exit with status 1 if a refusal of this kind was seen;
                    several with commas, or by giving the option again
  --compare         replay by the reference too, and compare every answer and
                    all of memory and of the display cache
  --board NAME      82810 (default), dc100, 82810-main, dc100-main
  --memory SIZE     main memory: a multiple of 8M, 8M to 1G
                    (default: the image's length, else 8M)
  --image FILE      memory at the start of every FILE
  --display FILE    display cache at the start of every FILE (boards dc100 and
                    dc100-main)
  --jobs NUMBER     files replayed side by side (default: one for each core)
  --text, --binary  take every FILE for a text trace, or for the binary form
  --color WHEN      auto (default), always or never

Kinds, by number or name: 2 width, 3 translation-off, 4 not-valid, 5 type,
6 protected, 7 above-memory, 8 outside-window, 9 fence, 10 not-exact, 11 ring,
12 instruction, 13 layout, 16 forbidden; 'all' is every kind.

A FILE that cannot be read or is malformed is told and left out of the count;
the others are replayed, and the exit status is 3 or 4 unless a denied refusal
was seen.

Example:
  mitrophel audit --deny protected,forbidden,layout night/*.rec
";

const COMPARE: &str = "\
Usage: mitrophel compare [OPTION].. FILE
Replay the trace or records of FILE ('-': standard input) twice, each time with
another key in the memory that is protected once SMRAM's lock is set, and show
side by side what differs. After the lock only values that management mode
reads from that memory may differ. If anything else does, an answer, a
register, a table word, an unprotected byte, it is named, and the exit status
is 1. Words of a table in main memory count where they are unprotected, and
every byte of a display cache does.

  --key KEY         a file of 1 to 65,536 bytes, or 'random' (./random is a
                    file); give it twice, what is not given is random
  --show-protected  print the values too; they are shown as dots otherwise
  --board NAME      82810 (default), dc100, 82810-main, dc100-main
  --memory SIZE     main memory: a multiple of 8M, 8M to 1G
                    (default: the image's length, else 8M)
  --image FILE      memory at the start, but for the protected bytes
  --display FILE    display cache at the start of both runs (boards dc100 and
                    dc100-main)
  --text, --binary  take FILE for a text trace, or for the binary form
  --color WHEN      auto (default), always or never

The key stands in all protected bytes from the start, over and over, and every
write into them, before the lock anybody's and then management mode's, carries
its next bytes instead of the trace's data. What differs before the lock is
shown and is no failure. A reset ends the comparison. A trace that never sets
the lock is refused.

Example: is there a way from my key to the picture?
  mitrophel compare --key key.bin --key random desk.trace
";

const DEMO: &str = "\
Usage: mitrophel demo [OPTION]..
On an embedded sample: a desk is set up, management mode keeps the key, the
lobby picture is drawn through the window and read from memory, the faults of
three earlier models are tried, and all is replayed again with another key.
Every outcome is checked: the exit status is 5 if one is not as the sample has
it, or depends on the key.

  --ascii       draw the picture in ASCII instead of half blocks
  --color WHEN  auto (default), always or never

Example:
  mitrophel demo | less
";

const EXPLAIN: &str = "\
Usage: mitrophel explain [CODE]
Tell when an access is refused with CODE, which codes are looked at before it,
what the answer holds, and a trace that gets it. CODE is a number, 1 to 13 or
16, or a short name, as in 'mitrophel audit --help'. Without CODE, list all
codes.

Example:
  mitrophel explain protected
";

const COMPLETION: &str = "\
Usage: mitrophel completion SHELL
Print the completion script of SHELL: bash, zsh or fish. It knows commands,
options and their fixed values. 'make install' puts all three in place.

Example: in ~/.bashrc
  source <(mitrophel completion bash)
";

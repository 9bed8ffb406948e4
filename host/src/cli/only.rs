//! `--only`: which records are told.

use super::args::Options;
use super::failure::{shown, Failure};
use super::names;
use super::pair::Step;
use mitrophel::reference::Rule;
use mitrophel::{Kind, Refusal, Target};

/// The kinds of records that are told; all of them where none is named.
pub struct Only(Vec<Test>);

/// Whether a record is of a kind.
type Is = fn(&Step<'_, '_>) -> bool;

enum Test {
    Named(Is),
    Refused(Refusal),
}

/// What `--only` takes beside the refusals' own names and codes.
pub const NAMES: &[(&str, Is)] = &[
    ("refused", |step| step.answer.code != 0),
    ("answered", |step| step.answer.code == 0),
    ("memory", |step| step.answer.target() == Some(Target::Memory)),
    ("register", |step| step.answer.target() == Some(Target::Register)),
    ("hub", |step| step.answer.target() == Some(Target::Hub)),
    ("vga", |step| step.answer.target() == Some(Target::Vga)),
    ("mmio", |step| step.answer.target() == Some(Target::MemoryMapped)),
    ("display", |step| step.answer.target() == Some(Target::DisplayCache)),
    ("window", |step| step.rule == Some(Rule::Window)),
    ("shadow", |step| matches!(step.rule, Some(Rule::ShadowMemory | Rule::MasterShadow))),
    ("hole", |step| matches!(step.rule, Some(Rule::Hole | Rule::MasterHole))),
    ("error", |step| matches!(step.rule, Some(Rule::TsegError | Rule::HsegError))),
    ("interrupt", |step| step.answer.line != 0),
    ("io", |step| matches!(kind(step), Some(Kind::IoRead | Kind::IoWrite))),
    ("read", |step| matches!(kind(step), Some(Kind::DataRead | Kind::MasterRead))),
    ("fetch", |step| kind(step) == Some(Kind::CodeRead)),
    ("write", |step| matches!(kind(step), Some(Kind::Write | Kind::MasterWrite))),
    ("smm", |step| step.record.is_management()),
    ("master", |step| matches!(kind(step), Some(Kind::MasterRead | Kind::MasterWrite))),
    ("run", |step| kind(step) == Some(Kind::Run)),
    ("reset", |step| kind(step) == Some(Kind::Reset)),
];

fn kind(step: &Step<'_, '_>) -> Option<Kind> {
    step.record.kind()
}

impl Only {
    pub fn given(options: &Options) -> Result<Only, Failure> {
        let mut tests = Vec::new();
        for value in options.values("--only") {
            for name in value.to_string_lossy().split(',') {
                tests.push(test(name).ok_or_else(|| unknown(options, name))?);
            }
        }
        Ok(Only(tests))
    }

    /// Whether a record is of a kind that is told.
    pub fn tells(&self, step: &Step<'_, '_>) -> bool {
        self.0.is_empty()
            || self.0.iter().any(|test| match test {
                Test::Named(test) => test(step),
                Test::Refused(refusal) => step.answer.refusal() == Some(*refusal),
            })
    }
}

fn test(name: &str) -> Option<Test> {
    let named = NAMES.iter().find(|(own, _)| own.eq_ignore_ascii_case(name)).map(|(_, test)| Test::Named(*test));
    named.or_else(|| names::refusal_named(name).map(Test::Refused))
}

fn unknown(options: &Options, name: &str) -> Failure {
    let known: Vec<&str> = NAMES.iter().map(|(name, _)| *name).collect();
    let (known, found) = (known.join(", "), shown(name));
    options.usage(format!("--only: expected {known}, or a refusal's code or name, found '{found}'"))
}

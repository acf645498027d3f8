//! The words behind a command's name: operands and options.

use std::ffi::{OsStr, OsString};
use std::ops::Deref;

use super::files::shown;
use super::{help, Stop};

/// What a command takes.
pub struct Rule {
    pub name: &'static str,
    pub help: &'static str,
    pub least: usize,
    pub most: usize,
    /// One that takes a value ends with `=`.
    pub options: &'static [&'static str],
}

/// How the bytes of an operand's file are taken: as they tell, or as the caller says.
#[derive(Clone, Copy, Debug, Default, PartialEq, Eq)]
pub enum Taken {
    #[default]
    AsTold,
    Record,
    Text,
}

/// A word that is no option, and how its file is taken if it names one.
#[derive(Debug)]
pub struct Operand {
    word: OsString,
    pub taken: Taken,
}

impl Deref for Operand {
    type Target = OsStr;

    fn deref(&self) -> &OsStr {
        &self.word
    }
}

#[derive(Debug, Default)]
pub struct Args {
    pub operands: Vec<Operand>,
    pub all: bool,
    pub json: bool,
    pub released: bool,
    values: Vec<(&'static str, OsString)>,
}

impl Args {
    /// The value of an option.
    pub fn value(&self, option: &str) -> Option<&OsStr> {
        self.values.iter().find(|(name, _)| *name == option).map(|(_, value)| value.as_os_str())
    }
}

pub enum Asked {
    Help,
    Run(Args),
}

/// Options may stand anywhere up to `--`; a lone `-` is an operand.
pub fn parse(rule: &Rule, words: &[OsString]) -> Result<Asked, Stop> {
    let mut args = Args::default();
    let mut taken = Taken::AsTold;
    let mut options = true;
    let mut words = words.iter();
    while let Some(word) = words.next() {
        if !options || word == "-" || !word.as_encoded_bytes().starts_with(b"-") {
            args.operands.push(Operand { word: word.clone(), taken });
        } else if word == "--" {
            options = false;
        } else if word == "--help" || word == "-h" {
            return Ok(Asked::Help);
        } else if let Some((name, given)) = with_value(rule, word) {
            let missing = || wrong(rule, &format!("{name} takes a value"));
            let value = given.or_else(|| words.next().cloned()).ok_or_else(missing)?;
            if args.value(name).is_some() {
                return Err(wrong(rule, &format!("{name} is given twice")));
            }
            args.values.push((name, value));
        } else if !rule.options.iter().any(|option| word == option) {
            return Err(wrong(rule, &format!("there is no option {}", shown(word))));
        } else if word == "--record" || word == "--text" {
            let asked = if word == "--text" { Taken::Text } else { Taken::Record };
            if taken != Taken::AsTold && taken != asked {
                return Err(wrong(rule, "--record and --text are given both"));
            }
            taken = asked;
        } else {
            args.all |= word == "--all";
            args.json |= word == "--json";
            args.released |= word == "--released";
        }
    }
    // An option may stand behind the operands.
    args.operands.iter_mut().for_each(|operand| operand.taken = taken);
    let given = args.operands.len();
    if given < rule.least || given > rule.most {
        return Err(wrong(rule, &format!("expected {}, found {given}", counted(rule))));
    }
    Ok(Asked::Run(args))
}

/// The option that takes a value and that a word names, with the value where it follows after `=`.
fn with_value(rule: &Rule, word: &OsStr) -> Option<(&'static str, Option<OsString>)> {
    let names = rule.options.iter().filter_map(|option| option.strip_suffix('='));
    let text = word.to_str();
    names.into_iter().find_map(|name| match text?.strip_prefix(name)? {
        "" => Some((name, None)),
        rest => Some((name, Some(rest.strip_prefix('=')?.into()))),
    })
}

fn counted(rule: &Rule) -> String {
    let least = rule.least;
    let operands = if rule.most == 1 { "operand" } else { "operands" };
    let more = match rule.most {
        most if most == least => String::new(),
        usize::MAX => " or more".to_string(),
        most => format!(" to {most}"),
    };
    format!("{least}{more} {operands}")
}

fn wrong(rule: &Rule, what: &str) -> Stop {
    let name = rule.name;
    let usage = help::usage(rule.help);
    Stop::failed(format!("{name}: {what}\n{usage}\n`release {name} --help` says more"))
}

//! What the sources use of `clap`: commands with words that have to stand behind them and options with one value each.
//! For builds without proofs. It says of words what the kit's `clap` says, but for its account of the usage.

use rattle_std::alloc::{AllocError, Global};
use rattle_std::string::String as Text;
use std::collections::BTreeSet;
use std::fmt;

pub mod error {
    pub use crate::{Error, ErrorKind};
}

/// What went wrong, or what was asked for.
#[derive(Clone, Copy, Debug, PartialEq, Eq)]
pub enum ErrorKind {
    InvalidValue,
    UnknownArgument,
    InvalidSubcommand,
    TooManyValues,
    ArgumentConflict,
    MissingRequiredArgument,
    DisplayHelp,
    DisplayHelpOnMissingArgumentOrSubcommand,
    OutOfMemory,
}

/// Why words are not what was declared.
#[derive(Debug)]
pub struct Error {
    kind: ErrorKind,
    text: String,
}

impl Error {
    pub fn kind(&self) -> ErrorKind {
        self.kind
    }

    fn new(kind: ErrorKind, cause: String) -> Error {
        let text = format!("error: {cause}\n\nUsage: jahob\n\nFor more information, try '--help'.\n");
        Error { kind, text }
    }

    /// An error that comes without an account of the usage.
    fn short(kind: ErrorKind, cause: String) -> Error {
        let text = format!("error: {cause}\n\nFor more information, try '--help'.\n");
        Error { kind, text }
    }

    fn help(kind: ErrorKind) -> Error {
        Error { kind, text: String::new() }
    }
}

impl fmt::Display for Error {
    fn fmt(&self, f: &mut fmt::Formatter<'_>) -> fmt::Result {
        f.write_str(&self.text)
    }
}

impl From<AllocError> for Error {
    fn from(_error: AllocError) -> Error {
        Error::help(ErrorKind::OutOfMemory)
    }
}

/// A word behind a command, or an option where it has a long name.
#[derive(Clone, Copy)]
pub struct Arg<'a> {
    id: &'a str,
    long: Option<&'a str>,
    value: &'a str,
}

impl<'a> Arg<'a> {
    pub fn new(_alloc: Global, id: &'a str) -> Arg<'a> {
        Arg { id, long: None, value: id }
    }

    /// A word has to be there, as it always has here.
    pub fn required(self, _yes: bool) -> Arg<'a> {
        self
    }

    pub fn long(self, name: &'a str) -> Arg<'a> {
        Arg { long: Some(name), ..self }
    }

    pub fn value_name(self, value: &'a str) -> Arg<'a> {
        Arg { value, ..self }
    }
}

impl fmt::Display for Arg<'_> {
    fn fmt(&self, f: &mut fmt::Formatter<'_>) -> fmt::Result {
        match self.long {
            Some(long) => write!(f, "--{long} <{}>", self.value),
            None => write!(f, "<{}>", self.value),
        }
    }
}

/// A program, or one of its commands.
pub struct Command<'a> {
    alloc: Global,
    name: &'a str,
    words: Vec<Arg<'a>>,
    options: Vec<Arg<'a>>,
    commands: Vec<Command<'a>>,
}

impl<'a> Command<'a> {
    pub fn new(alloc: Global, name: &'a str) -> Command<'a> {
        Command { alloc, name, words: Vec::new(), options: Vec::new(), commands: Vec::new() }
    }

    /// The words begin with the command, as they always do here.
    pub fn no_binary_name(self, _yes: bool) -> Command<'a> {
        self
    }

    /// Words without a command are a call for help, as they always are here.
    pub fn arg_required_else_help(self, _yes: bool) -> Command<'a> {
        self
    }

    pub fn subcommand_required(self, _yes: bool) -> Command<'a> {
        self
    }

    pub fn arg(mut self, arg: Arg<'a>) -> Result<Command<'a>, AllocError> {
        let place = if arg.long.is_some() { &mut self.options } else { &mut self.words };
        place.push(arg);
        Ok(self)
    }

    pub fn subcommand(mut self, command: Command<'a>) -> Result<Command<'a>, AllocError> {
        self.commands.push(command);
        Ok(self)
    }

    /// Answers whether the words are as they were declared.
    pub fn try_get_matches_from(self, words: &[Text]) -> Result<(), Error> {
        let words: Vec<&str> = words.iter().map(|word| word.as_str()).collect();
        self.read(&words)
    }

    fn command(&self, name: &str) -> Option<&Command<'a>> {
        self.commands.iter().find(|it| it.name == name)
    }

    /// The names of the commands, `help` among them.
    fn names(&self) -> Vec<&'a str> {
        self.commands.iter().map(|it| it.name).chain(["help"]).collect()
    }

    /// The long names of the options, `help` among them.
    fn longs(&self) -> Vec<&'a str> {
        self.options.iter().filter_map(|it| it.long).chain(["help"]).collect()
    }

    /// Reads the words of the program up to the command, and then those of the command.
    fn read(&self, words: &[&str]) -> Result<(), Error> {
        let Some((word, rest)) = words.split_first() else {
            return Err(Error::help(ErrorKind::DisplayHelpOnMissingArgumentOrSubcommand));
        };
        if *word == "help" {
            return Err(self.help_of(rest));
        }
        if let Some(command) = self.command(word) {
            return Reading::of(command).read(rest);
        }
        if *word == "--" {
            return Err(self.behind_the_end(rest));
        }
        match shape(word) {
            Shape::Long(name, value) => Err(self.long(name, value, rest)),
            Shape::Short(letter) => Err(self.short(letter)),
            Shape::Plain => Err(self.no_command(word)),
        }
    }

    /// What comes of `help` with some words behind it.
    fn help_of(&self, words: &[&str]) -> Error {
        let Some((word, rest)) = words.split_first() else {
            return Error::help(ErrorKind::DisplayHelp);
        };
        if let Some(command) = self.command(word) {
            return command.help_of(rest);
        }
        if *word == "help" && !self.commands.is_empty() {
            return Command::new(self.alloc, "help").help_of(rest);
        }
        Error::new(ErrorKind::InvalidSubcommand, format!("unrecognized subcommand '{word}'"))
    }

    /// What is said of a word that is no command.
    fn no_command(&self, word: &str) -> Error {
        let mut cause = format!("unrecognized subcommand '{word}'");
        let similar = alike(self.alloc, word, &self.names());
        if !similar.is_empty() {
            let several = if similar.len() == 1 {
                "a similar subcommand exists"
            } else {
                "some similar subcommands exist"
            };
            let names: Vec<String> = similar.iter().map(|name| format!("'{name}'")).collect();
            cause += &format!("\n\n  tip: {several}: {}", names.join(", "));
        }
        Error::new(ErrorKind::InvalidSubcommand, cause)
    }

    /// What is said of words behind `--` where a command is wanted.
    fn behind_the_end(&self, words: &[&str]) -> Error {
        match words.first() {
            None => Error::help(ErrorKind::DisplayHelpOnMissingArgumentOrSubcommand),
            Some(word) if self.names().contains(word) => Error::new(
                ErrorKind::UnknownArgument,
                format!(
                    "unexpected argument '{word}' found\n\n  \
                     tip: subcommand '{word}' exists; to use it, remove the '--' before it"
                ),
            ),
            Some(word) => self.no_command(word),
        }
    }

    /// What comes of an option with two hyphens that isn't declared, and of `--help`.
    fn long(&self, name: &str, value: Option<&str>, rest: &[&str]) -> Error {
        if name == "help" {
            return help_option(value);
        }
        let mut cause = format!("unexpected argument '--{name}' found");
        if let Some(near) = alike(self.alloc, name, &self.longs()).last() {
            cause += &format!("\n\n  tip: a similar argument exists: '--{near}'");
        } else if let Some((command, near)) = self.long_of_a_command(name, rest) {
            cause += &format!("\n\n  tip: '{command} --{near}' exists");
        } else if !self.words.is_empty() {
            cause += &format!("\n\n  tip: to pass '--{name}' as a value, use '-- --{name}'");
        }
        Error::new(ErrorKind::UnknownArgument, cause)
    }

    /// The option like a name of the command that stands first among the words, of those that have one.
    fn long_of_a_command(&self, name: &str, words: &[&str]) -> Option<(&'a str, &'a str)> {
        words.iter().find_map(|word| {
            let command = self.command(word)?;
            Some((command.name, *alike(self.alloc, name, &command.longs()).last()?))
        })
    }

    /// What comes of an option with one hyphen.
    fn short(&self, letter: char) -> Error {
        if letter == 'h' {
            return Error::help(ErrorKind::DisplayHelp);
        }
        let mut cause = format!("unexpected argument '-{letter}' found");
        if !self.words.is_empty() {
            cause += &format!("\n\n  tip: to pass '-{letter}' as a value, use '-- -{letter}'");
        }
        Error::new(ErrorKind::UnknownArgument, cause)
    }
}

/// What a word looks like.
enum Shape<'w> {
    Long(&'w str, Option<&'w str>),
    Short(char),
    Plain,
}

fn shape(word: &str) -> Shape<'_> {
    let Some(rest) = word.strip_prefix('-') else {
        return Shape::Plain;
    };
    match rest.strip_prefix('-') {
        Some("") => Shape::Plain,
        Some(long) => match long.split_once('=') {
            Some((name, value)) => Shape::Long(name, Some(value)),
            None => Shape::Long(long, None),
        },
        None => rest.chars().next().map_or(Shape::Plain, Shape::Short),
    }
}

fn help_option(value: Option<&str>) -> Error {
    match value {
        None => Error::help(ErrorKind::DisplayHelp),
        Some(value) => Error::new(
            ErrorKind::TooManyValues,
            format!("unexpected value '{value}' for '--help' found; no more were expected"),
        ),
    }
}

/// Those of some names that are like a word, from the worst to the best.
fn alike<'a>(alloc: Global, word: &str, names: &[&'a str]) -> Vec<&'a str> {
    let likeness = |name: &str| strsim::jaro(alloc, word, name).unwrap_or(0.0);
    let mut found: Vec<(f64, &str)> = names.iter().map(|name| (likeness(name), *name)).collect();
    found.retain(|it| it.0 > 0.7);
    found.sort_by(|one, other| one.0.total_cmp(&other.0));
    found.into_iter().map(|it| it.1).collect()
}

/// What was read of the words of a command.
struct Reading<'c, 'a> {
    command: &'c Command<'a>,
    /// The option that was named last, and whether it has its value. What is wrong with it is said when the next word
    /// has a place, or when the words end.
    pending: Option<(Arg<'a>, bool)>,
    given: BTreeSet<&'a str>,
    words: usize,
}

impl<'c, 'a> Reading<'c, 'a> {
    fn of(command: &'c Command<'a>) -> Reading<'c, 'a> {
        Reading { command, pending: None, given: BTreeSet::new(), words: 0 }
    }

    fn read(mut self, words: &[&str]) -> Result<(), Error> {
        let mut ended = false;
        for (place, word) in words.iter().enumerate() {
            if ended {
                self.plain(word)?;
            } else if *word == "--" {
                ended = true;
            } else {
                self.word(word, &words[place + 1..])?;
            }
        }
        self.settle()?;
        self.all_there()
    }

    fn word(&mut self, word: &str, rest: &[&str]) -> Result<(), Error> {
        match shape(word) {
            Shape::Long(name, value) => self.long(name, value, rest),
            Shape::Short('h') => {
                self.settle()?;
                Err(self.command.short('h'))
            }
            Shape::Short(letter) => Err(self.command.short(letter)),
            Shape::Plain => match &mut self.pending {
                Some((_, valued)) if !*valued => {
                    *valued = true;
                    Ok(())
                }
                _ => self.plain(word),
            },
        }
    }

    fn long(&mut self, name: &str, value: Option<&str>, rest: &[&str]) -> Result<(), Error> {
        let declared = self.command.options.iter().find(|it| it.long == Some(name));
        match declared {
            Some(option) => {
                self.settle()?;
                self.pending = Some((*option, value.is_some()));
                value.map_or(Ok(()), |_| self.settle())
            }
            None => {
                if name == "help" && value.is_none() {
                    self.settle()?;
                }
                Err(self.command.long(name, value, rest))
            }
        }
    }

    /// A word that stands for itself.
    fn plain(&mut self, word: &str) -> Result<(), Error> {
        if self.words == self.command.words.len() {
            let cause = format!("unexpected argument '{word}' found");
            return Err(Error::new(ErrorKind::UnknownArgument, cause));
        }
        self.settle()?;
        self.words += 1;
        Ok(())
    }

    /// Says what is wrong with the option that was named last.
    fn settle(&mut self) -> Result<(), Error> {
        match self.pending.take() {
            None => Ok(()),
            Some((option, false)) => Err(Error::short(
                ErrorKind::InvalidValue,
                format!("a value is required for '{option}' but none was supplied"),
            )),
            Some((option, true)) if self.given.insert(option.id) => Ok(()),
            Some((option, true)) => Err(Error::new(
                ErrorKind::ArgumentConflict,
                format!("the argument '{option}' cannot be used multiple times"),
            )),
        }
    }

    /// Says which of the words that have to be there aren't.
    fn all_there(&self) -> Result<(), Error> {
        let missing: Vec<String> =
            self.command.words[self.words..].iter().map(|it| format!("\n  {it}")).collect();
        if missing.is_empty() {
            return Ok(());
        }
        let cause = format!("the following required arguments were not provided:{}", missing.concat());
        Err(Error::new(ErrorKind::MissingRequiredArgument, cause))
    }
}

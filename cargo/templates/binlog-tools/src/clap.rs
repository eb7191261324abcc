//! The words of the command line, read by the crate `clap`: with the forms that the proved sources have of its calls. Some of
//! them may be refused memory there, and values are borrowed texts.
use crate::host::{Eprint, Print};
use binlog::AllocError;
use std::any::Any;
use std::io;
use std::marker::PhantomData;

pub use ::clap::{ArgAction, builder, value_parser};

/// An argument of a command.
#[derive(Clone, Debug)]
pub struct Arg<'a>(::clap::Arg, PhantomData<&'a str>);

impl<'a> Arg<'a> {
    /// The argument of this name.
    pub fn new(name: &'a str) -> Self {
        Arg(::clap::Arg::new(name.to_owned()), PhantomData)
    }

    fn with(self, change: impl FnOnce(::clap::Arg) -> ::clap::Arg) -> Self {
        Arg(change(self.0), PhantomData)
    }

    /// Its option of one character.
    pub fn short(self, name: char) -> Self {
        self.with(|arg| arg.short(name))
    }

    /// Its long option.
    pub fn long(self, name: &'a str) -> Self {
        self.with(|arg| arg.long(name.to_owned()))
    }

    /// What its value is called in the help.
    pub fn value_name(self, name: &'a str) -> Self {
        self.with(|arg| arg.value_name(name.to_owned()))
    }

    /// What the option does.
    pub fn action(self, action: ArgAction) -> Self {
        self.with(|arg| arg.action(action))
    }

    /// Its line of the help.
    pub fn help(self, text: &'a str) -> Self {
        self.with(|arg| arg.help(text.to_owned()))
    }

    /// Whether it has to be given.
    pub fn required(self, yes: bool) -> Self {
        self.with(|arg| arg.required(yes))
    }

    /// How many values it takes.
    pub fn num_args(self, range: impl Into<builder::ValueRange>) -> Self {
        self.with(|arg| arg.num_args(range))
    }

    /// Its value where none is given.
    pub fn default_value(self, value: &'a str) -> Self {
        self.with(|arg| arg.default_value(value.to_owned()))
    }

    /// How its values are read.
    pub fn value_parser(self, parser: impl Into<builder::ValueParser>) -> Self {
        self.with(|arg| arg.value_parser(parser.into()))
    }
}

/// A program or one of its commands.
#[derive(Clone, Debug)]
pub struct Command<'a>(::clap::Command, PhantomData<&'a str>);

impl<'a> Command<'a> {
    /// The command of this name.
    pub fn new(name: &'a str) -> Self {
        Command(::clap::Command::new(name.to_owned()), PhantomData)
    }

    fn with(self, change: impl FnOnce(::clap::Command) -> ::clap::Command) -> Self {
        Command(change(self.0), PhantomData)
    }

    /// What it is called in messages.
    pub fn bin_name(self, name: &'a str) -> Result<Self, AllocError> {
        Ok(self.with(|command| command.bin_name(name)))
    }

    /// Its version.
    pub fn version(self, version: &'a str) -> Self {
        self.with(|command| command.version(version.to_owned()))
    }

    /// The first line of its help.
    pub fn about(self, text: &'a str) -> Self {
        self.with(|command| command.about(text.to_owned()))
    }

    /// The end of its help.
    pub fn after_help(self, text: &'a str) -> Self {
        self.with(|command| command.after_help(text.to_owned()))
    }

    /// Whether its help is printed if no argument is given.
    pub fn arg_required_else_help(self, yes: bool) -> Self {
        self.with(|command| command.arg_required_else_help(yes))
    }

    /// Whether one of its commands has to be given.
    pub fn subcommand_required(self, yes: bool) -> Self {
        self.with(|command| command.subcommand_required(yes))
    }

    /// Adds a command.
    pub fn subcommand(self, other: Command<'a>) -> Result<Self, AllocError> {
        Ok(self.with(|command| command.subcommand(other.0)))
    }

    /// Adds an argument.
    pub fn arg(self, arg: Arg<'a>) -> Result<Self, AllocError> {
        Ok(self.with(|command| command.arg(arg.0)))
    }

    /// What these words say, the first of which is the program's name.
    pub fn try_get_matches_from(self, words: &'a [String]) -> Result<ArgMatches<'a>, Error> {
        self.0.try_get_matches_from(words).map(|matches| ArgMatches::new(&matches)).map_err(Error)
    }
}

/// What the words of a command say.
#[derive(Clone, Debug)]
pub struct ArgMatches<'a> {
    values: ::clap::ArgMatches,
    texts: Vec<(String, Vec<&'a str>)>,
    command: Option<(&'a str, Box<ArgMatches<'a>>)>,
}

impl<'a> ArgMatches<'a> {
    fn new(values: &::clap::ArgMatches) -> Self {
        let texts = values.ids().filter_map(|id| {
            let found = values.try_get_many::<String>(id.as_str()).ok().flatten()?;
            Some((id.to_string(), found.map(|text| kept(text)).collect()))
        });
        ArgMatches {
            texts: texts.collect(),
            values: values.clone(),
            command: values
                .subcommand()
                .map(|(name, values)| (kept(name), Box::new(ArgMatches::new(values)))),
        }
    }

    /// The command that is named, and what its words say.
    pub fn subcommand(&self) -> Option<(&'a str, &ArgMatches<'a>)> {
        self.command.as_ref().map(|(name, matches)| (*name, &**matches))
    }

    /// Whether an option has texts.
    pub fn contains_id(&self, name: &str) -> bool {
        self.get_strs(name).is_some()
    }

    /// Whether an option is given that takes no value.
    pub fn get_flag(&self, name: &str) -> bool {
        self.get_one(name).unwrap_or(false)
    }

    /// The value of an option, if it has one.
    pub fn get_one<T: Any + Copy + Send + Sync>(&self, name: &str) -> Option<T> {
        self.values.try_get_one::<T>(name).ok().flatten().copied()
    }

    /// The text of an option, if it has one.
    pub fn get_str(&self, name: &str) -> Option<&'a str> {
        self.get_strs(name)?.first().copied()
    }

    /// The texts of an option, if it has any.
    pub fn get_strs(&self, name: &str) -> Option<&[&'a str]> {
        self.texts.iter().find(|(other, _)| other == name).map(|(_, texts)| texts.as_slice())
    }
}

/// The text for as long as the program runs, which reads its words once.
fn kept(text: &str) -> &'static str {
    Box::leak(text.into())
}

/// What was printed in place of a run, or is wrong with the words.
#[derive(Debug)]
pub struct Error(::clap::Error);

impl Error {
    /// What it is.
    pub fn kind(&self) -> error::ErrorKind {
        match self.0.kind() {
            ::clap::error::ErrorKind::DisplayHelp => error::ErrorKind::DisplayHelp,
            ::clap::error::ErrorKind::DisplayVersion => error::ErrorKind::DisplayVersion,
            _ => error::ErrorKind::Usage,
        }
    }

    /// Prints it, on standard error if it is wrong usage.
    pub fn print<R: Print + Eprint>(&self, rt: &R) -> io::Result<()> {
        if self.0.use_stderr() {
            rt.eprint(format_args!("{}", self.0))
        } else {
            rt.print(format_args!("{}", self.0))
        }
    }
}

/// What an error is.
pub mod error {
    /// The kinds of which a caller may ask.
    #[derive(Clone, Copy, Debug, PartialEq, Eq)]
    pub enum ErrorKind {
        /// The help was asked for.
        DisplayHelp,
        /// The version was asked for.
        DisplayVersion,
        /// There was no memory.
        OutOfMemory,
        /// The words are wrong.
        Usage,
    }
}

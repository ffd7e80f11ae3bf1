//! Why the command ends with another status than 0.
use funnelcress::{Refusal, TreeError};
use std::fmt;
use std::io;

pub enum Failure {
    /// Words that no command takes, with the help to show: status 2.
    Usage(String, &'static str),
    /// Wrong words, before the command's help is known.
    Words(String),
    /// A file that can't be read or written, or is of another format.
    File(String),
    /// The library refused.
    Refused(Refusal),
    /// Answers were given, and so many calls among them were refused.
    SomeRefused(usize),
    /// The record is not sound.
    Unsound,
}

impl Failure {
    pub fn usage(message: &str, help: &'static str) -> Failure {
        Failure::Usage(message.into(), help)
    }

    pub fn file(name: &str, message: impl fmt::Display) -> Failure {
        Failure::File(format!("{name}: {message}"))
    }

    pub fn with_usage(self, help: &'static str) -> Failure {
        match self {
            Failure::Words(message) => Failure::Usage(message, help),
            other => other,
        }
    }

    pub fn status(&self) -> u8 {
        match self {
            Failure::Usage(..) | Failure::Words(_) => 2,
            _ => 1,
        }
    }
}

impl fmt::Display for Failure {
    fn fmt(&self, f: &mut fmt::Formatter<'_>) -> fmt::Result {
        match self {
            Failure::Usage(message, help) => write!(f, "funnelcress: {message}\n\n{}", help.trim_end()),
            Failure::Words(message) | Failure::File(message) => write!(f, "funnelcress: {message}"),
            Failure::Refused(refusal) => write!(f, "funnelcress: {refusal}"),
            Failure::SomeRefused(count) => write!(f, "funnelcress: {count} rays were refused"),
            Failure::Unsound => write!(f, "funnelcress: the record is not sound; convert its tree again"),
        }
    }
}

impl From<Refusal> for Failure {
    fn from(refusal: Refusal) -> Failure {
        Failure::Refused(refusal)
    }
}

impl From<TreeError> for Failure {
    fn from(error: TreeError) -> Failure {
        Failure::File(error.to_string())
    }
}

impl From<io::Error> for Failure {
    fn from(error: io::Error) -> Failure {
        Failure::File(format!("standard output: {error}"))
    }
}

//! How a command ends, other than well.

use std::fmt::Display;
use std::io::{self, Write};

/// Why a command stops. Each holds what is still to be said on standard error; `Pipe` says nothing, since nobody reads on.
pub enum End {
    /// The library refuses, or a text is wrong: status 1.
    Refused(String),
    /// It could not be tried: no file, no memory, a full disk: status 2.
    Stopped(String),
    /// All is said already: this status.
    Said(i32),
    /// Standard output is closed: status 0.
    Pipe,
}

pub type Done<T> = Result<T, End>;

pub fn stopped<T>(name: impl Display, what: impl Display) -> Done<T> {
    Err(End::Stopped(format!("placer: {name}: {what}")))
}

impl End {
    /// Says why, and gives the status.
    pub fn told(self) -> i32 {
        match self {
            End::Refused(said) => {
                say(said);
                1
            }
            End::Stopped(said) => {
                say(said);
                2
            }
            End::Said(status) => status,
            End::Pipe => 0,
        }
    }
}

/// A line on standard error. Where that is closed or full nobody can be told.
pub fn say(line: impl Display) {
    let _ = writeln!(io::stderr().lock(), "{line}");
}

/// What the system says of a failure, without its number.
pub fn words(error: &io::Error) -> String {
    match error.kind() {
        io::ErrorKind::NotFound => "no such file".to_string(),
        io::ErrorKind::PermissionDenied => "permission denied".to_string(),
        io::ErrorKind::OutOfMemory => "no memory".to_string(),
        _ => {
            let text = error.to_string();
            match text.find(" (os error") {
                Some(at) => text[..at].to_lowercase(),
                None => text,
            }
        }
    }
}

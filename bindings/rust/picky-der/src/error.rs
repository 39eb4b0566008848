//! Why bytes are refused.
use crate::tables::RULES;
use std::fmt;

/// Why bytes are refused, or why nothing was written.
#[derive(Clone, Copy, Debug, PartialEq, Eq, Hash)]
#[non_exhaustive]
pub enum Reason {
    /// The bytes are cut short: others after them could make them a message.
    Truncated,
    /// The bytes up to the one at the position begin no message.
    Invalid,
    /// The same, but they may be a message that isn't read here. Of a writer: what was asked for is too large.
    Unsupported,
    /// Memory ran out.
    NoMemory,
    /// The type has no table, and so its messages have no JSON.
    NoTable,
    /// An element breaks the rule of X.690 with this code, from 101 on.
    Rule(u32),
    /// Another code of the library.
    Other(u32),
}

/// Why bytes are refused, and where this was found.
#[derive(Clone, Debug, PartialEq, Eq, Hash)]
pub struct Error {
    /// Why.
    pub reason: Reason,
    /// The index of a byte, or of the first byte of an element.
    pub position: usize,
    /// The path of the element in a message, as `tbsCertificate.extensions[3].extnID`, or by numbers, as `0.2.1`. It is empty for the
    /// outermost one, and where no message was checked.
    pub path: String,
}

impl Error {
    pub(crate) fn of(code: u32, position: usize) -> Result<(), Error> {
        use picky_der_sys as sys;
        let reason = match code {
            sys::PICKY_DER_OK => return Ok(()),
            sys::PICKY_DER_TRUNCATED => Reason::Truncated,
            sys::PICKY_DER_INVALID => Reason::Invalid,
            sys::PICKY_DER_UNSUPPORTED => Reason::Unsupported,
            sys::PICKY_DER_NO_MEMORY => Reason::NoMemory,
            sys::PICKY_DER_NO_TABLE => Reason::NoTable,
            rule if rule > 100 => Reason::Rule(rule),
            other => Reason::Other(other),
        };
        Err(Error { reason, position, path: String::new() })
    }

    // The same, with the path of the element for which a check refuses the bytes.
    pub(crate) fn with_path(mut self, number: u32, bytes: &[u8]) -> Error {
        let (code, path) = written(128, |out, used| picky_der_sys::path(number, bytes, out, used));
        if code == picky_der_sys::PICKY_DER_OK {
            self.path = String::from_utf8(path).unwrap_or_default();
        }
        self
    }

    /// The rule of X.690 that is broken: what is wrong, and the clause.
    pub fn rule(&self) -> Option<(&'static str, &'static str)> {
        match self.reason {
            Reason::Rule(code) => RULES.iter().find(|rule| rule.0 == code).map(|rule| (rule.1, rule.2)),
            _ => None,
        }
    }
}

impl fmt::Display for Error {
    fn fmt(&self, f: &mut fmt::Formatter<'_>) -> fmt::Result {
        let separator = if self.path.is_empty() { "" } else { ", " };
        let at = format!("{}{separator}{}", self.position, self.path);
        match (self.rule(), self.reason) {
            (Some((words, clause)), _) => write!(f, "at {at}: {words} (X.690, {clause})"),
            (None, Reason::Truncated) => write!(f, "at {at}: the bytes are cut short"),
            (None, Reason::Invalid) => write!(f, "at {at}: not such a message"),
            (None, Reason::Unsupported) => write!(f, "at {at}: not supported"),
            (None, Reason::NoMemory) => f.write_str("memory ran out"),
            (None, Reason::NoTable) => f.write_str("the type has no table"),
            (None, Reason::Rule(code) | Reason::Other(code)) => write!(f, "at {at}: code {code}"),
        }
    }
}

impl std::error::Error for Error {}

/// Why there is no message of a type for a text of JSON.
#[derive(Clone, Debug, PartialEq, Eq, Hash)]
#[non_exhaustive]
pub enum JsonError {
    /// It isn't JSON of a message of the type: what is wrong, and where.
    Refused(String),
    /// The type has no table, and so its messages have no JSON.
    NoTable,
    /// Memory ran out.
    NoMemory,
    /// Another code of the library.
    Other(u32),
}

/// Why there is no DER of a message of a type for bytes in BER, in the same cases.
pub type BerError = JsonError;

impl JsonError {
    pub(crate) fn of(code: u32, reason: Vec<u8>) -> JsonError {
        match code {
            picky_der_sys::PICKY_DER_NO_VALUE => JsonError::Refused(String::from_utf8_lossy(&reason).into_owned()),
            picky_der_sys::PICKY_DER_NO_TABLE => JsonError::NoTable,
            picky_der_sys::PICKY_DER_NO_MEMORY => JsonError::NoMemory,
            other => JsonError::Other(other),
        }
    }
}

impl fmt::Display for JsonError {
    fn fmt(&self, f: &mut fmt::Formatter<'_>) -> fmt::Result {
        match self {
            JsonError::Refused(reason) => f.write_str(reason),
            JsonError::NoTable => f.write_str("the type has no table"),
            JsonError::NoMemory => f.write_str("memory ran out"),
            JsonError::Other(code) => write!(f, "code {code}"),
        }
    }
}

impl std::error::Error for JsonError {}

// What a call returns and writes with this room, and if that is too small, with as much as the first call counted.
pub(crate) fn written(room: usize, mut call: impl FnMut(&mut [u8], &mut usize) -> u32) -> (u32, Vec<u8>) {
    let mut out = vec![0; room];
    let mut used = 0;
    let mut code = call(&mut out, &mut used);
    if code == picky_der_sys::PICKY_DER_NO_ROOM {
        out.resize(used, 0);
        used = 0;
        code = call(&mut out, &mut used);
    }
    out.truncate(used);
    (code, out)
}

//! Checks, lists and writes DER by a library that is proved.
//!
//! ```
//! use picky_der::{elements, Message};
//!
//! let der = [0x30, 0x03, 0x02, 0x01, 0x05];
//! let numbers = elements(&der).collect::<Result<Vec<_>, _>>()?;
//! assert_eq!(numbers[1].content, [5]);
//! assert!(Message::Certificate.check(&der).is_err());
//! # Ok::<(), picky_der::Error>(())
//! ```
#![forbid(unsafe_code)]
#![deny(missing_docs)]

mod elements;
mod error;
#[rustfmt::skip]
mod tables;
mod writer;

pub use elements::{elements, front, is_der, Class, Element, Elements};
use error::written;
pub use error::{BerError, Error, JsonError, Reason};
pub use tables::Message;
pub use writer::Writer;

impl Message {
    /// `Ok` exactly if the bytes are one message of the type and nothing else, and each element in them is in DER.
    ///
    /// # Errors
    /// `Reason::NoMemory` says that memory ran out, and any other reason that the bytes aren't such a message, as was found at the position,
    /// in the element with the path.
    pub fn check(self, bytes: &[u8]) -> Result<(), Error> {
        let (code, position) = picky_der_sys::check(self as u32, bytes);
        Error::of(code, position).map_err(|error| error.with_path(self as u32, bytes))
    }

    /// The JSON of a message of the type (X.697), on one line. It is made by a table of the type, which all types have
    /// but `Krb`.
    ///
    /// # Errors
    /// Those of `check` if the bytes aren't such a message. `Reason::NoTable` if the type has no table, and `Reason::Unsupported` if a number
    /// in the message has too many digits.
    pub fn to_json(self, bytes: &[u8]) -> Result<String, Error> {
        let mut position = 0;
        let (code, json) = written(4 * bytes.len() + 256, |out, used| {
            let (code, at) = picky_der_sys::to_json(self as u32, bytes, out, used);
            position = at;
            code
        });
        Error::of(code, position).map_err(|error| error.with_path(self as u32, bytes))?;
        Ok(String::from_utf8_lossy(&json).into_owned())
    }

    /// The DER of the message of the type with this JSON, as `to_json` returns it. `check` accepts it.
    ///
    /// # Errors
    /// `JsonError::Refused`, with what is wrong and where, if the text isn't JSON of a message of the type.
    pub fn from_json(self, json: &str) -> Result<Vec<u8>, JsonError> {
        match written(json.len() + 256, |out, used| picky_der_sys::from_json(self as u32, json.as_bytes(), out, used)) {
            (picky_der_sys::PICKY_DER_OK, der) => Ok(der),
            (code, reason) => Err(JsonError::of(code, reason)),
        }
    }

    /// The DER of the message of the type that these bytes are in BER (X.690, 8). `check` accepts it. It is made by a table of the type, as
    /// `to_json` has one, and the content of `Cms` by its own type, if that has a table.
    ///
    /// # Errors
    /// `BerError::Refused`, with what is wrong and where, if the bytes aren't BER of a message of the type.
    pub fn from_ber(self, bytes: &[u8]) -> Result<Vec<u8>, BerError> {
        match written(bytes.len() + 256, |out, used| picky_der_sys::from_ber(self as u32, bytes, out, used)) {
            (picky_der_sys::PICKY_DER_OK, der) => Ok(der),
            (code, reason) => Err(BerError::of(code, reason)),
        }
    }
}

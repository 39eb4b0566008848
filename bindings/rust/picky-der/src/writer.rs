//! Elements that are written.
use crate::Error;
use picky_der_sys::PICKY_DER_NO_ROOM;

/// Writes elements one after another.
#[derive(Clone, Debug, Default, PartialEq, Eq)]
pub struct Writer {
    bytes: Vec<u8>,
}

impl Writer {
    /// A writer that has written nothing.
    pub fn new() -> Writer {
        Writer::default()
    }

    /// Appends an element with this tag and content.
    ///
    /// # Errors
    /// `Reason::Unsupported` if so many bytes can't be counted.
    pub fn put(&mut self, tag: u8, content: &[u8]) -> Result<&mut Writer, Error> {
        self.grow(|out, used| picky_der_sys::put(out, used, tag, content))
    }

    /// Appends an element with this tag, whose content is what `write` writes.
    ///
    /// # Errors
    /// Those of `write`. For the tag of a SET, 0x31, the rule of its order if its members are neither in the order of their tags nor in that
    /// of their encodings. What was written then stays.
    pub fn within(&mut self, tag: u8, write: impl FnOnce(&mut Writer) -> Result<(), Error>) -> Result<&mut Writer, Error> {
        let start = self.bytes.len();
        write(self)?;
        self.grow(|out, used| picky_der_sys::wrap(out, used, start, tag))
    }

    /// Appends a SET OF, whose members are what `write` writes, in the order of their encodings (X.690, 11.6).
    ///
    /// # Errors
    /// Those of `write`. `Reason::NoMemory` if an allocation failed.
    pub fn set_of(&mut self, write: impl FnOnce(&mut Writer) -> Result<(), Error>) -> Result<&mut Writer, Error> {
        self.within(0x31, |inner| {
            let start = inner.bytes.len();
            write(inner)?;
            let used = inner.bytes.len();
            Error::of(picky_der_sys::sort(&mut inner.bytes, used, start), start)
        })
    }

    /// What was written.
    pub fn as_bytes(&self) -> &[u8] {
        &self.bytes
    }

    /// What was written.
    pub fn into_bytes(self) -> Vec<u8> {
        self.bytes
    }

    // Calls with the room that there is, and if that is too small, with as much as the first call counted.
    fn grow(&mut self, call: impl Fn(&mut [u8], &mut usize) -> u32) -> Result<&mut Writer, Error> {
        let before = self.bytes.len();
        let mut used = before;
        let mut code = call(&mut self.bytes, &mut used);
        if code == PICKY_DER_NO_ROOM {
            self.bytes.resize(used, 0);
            used = before;
            code = call(&mut self.bytes, &mut used);
        }
        self.bytes.truncate(used);
        Error::of(code, before)?;
        Ok(self)
    }
}

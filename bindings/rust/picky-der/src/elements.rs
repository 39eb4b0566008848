//! Elements of bytes.
use crate::Error;
use picky_der_sys::{Place, PICKY_DER_END, PICKY_DER_NO_ROOM};

/// The class of a tag (X.690, 8.1.2.2).
#[derive(Clone, Copy, Debug, PartialEq, Eq, Hash)]
pub enum Class {
    /// A type of X.680.
    Universal,
    /// A type of an application.
    Application,
    /// A member or an alternative.
    ContextSpecific,
    /// A type of an enterprise.
    Private,
}

/// An element. It borrows its content from the bytes that it is in.
#[derive(Clone, Copy, Debug, PartialEq, Eq, Hash)]
pub struct Element<'a> {
    /// The index of its first byte.
    pub offset: usize,
    /// How many elements are around it.
    pub depth: usize,
    /// Its first byte.
    pub tag: u8,
    /// The class of its tag.
    pub class: Class,
    /// The number of its tag, at most 30.
    pub number: u8,
    /// Whether its content is made of elements.
    pub is_constructed: bool,
    /// The whole element.
    pub encoding: &'a [u8],
    /// Its content.
    pub content: &'a [u8],
}

impl<'a> Element<'a> {
    fn of(bytes: &'a [u8], found: &picky_der_sys::Element) -> Element<'a> {
        let encoding = &bytes[found.offset..][..found.header_len + found.content_len];
        Element {
            offset: found.offset,
            depth: found.depth,
            tag: found.tag,
            class: match found.tag_class {
                0 => Class::Universal,
                1 => Class::Application,
                2 => Class::ContextSpecific,
                _ => Class::Private,
            },
            number: found.tag_number,
            is_constructed: found.is_constructed,
            encoding,
            content: &encoding[found.header_len..],
        }
    }
}

/// The element at the front of the bytes. Others may follow it, and the elements in it aren't looked at.
///
/// # Errors
/// The rule that this element breaks.
pub fn front(bytes: &[u8]) -> Result<Element<'_>, Error> {
    let (code, found) = picky_der_sys::front(bytes);
    Error::of(code, 0)?;
    Ok(Element::of(bytes, &found))
}

/// Whether the bytes are elements in DER and nothing else. It takes memory for the ends of nested elements alone.
pub fn is_der(bytes: &[u8]) -> bool {
    elements(bytes).all(|element| element.is_ok())
}

/// Goes over the elements of the bytes, at any depth and each before those in it.
///
/// The last item is an error if an element breaks a rule. If there is none, the bytes are in DER.
pub fn elements(bytes: &[u8]) -> Elements<'_> {
    Elements { bytes, place: Place::default(), ends: vec![0; 32], is_over: false }
}

/// The elements of bytes, from [`elements`].
#[derive(Clone, Debug)]
pub struct Elements<'a> {
    bytes: &'a [u8],
    place: Place,
    ends: Vec<usize>,
    is_over: bool,
}

impl<'a> Iterator for Elements<'a> {
    type Item = Result<Element<'a>, Error>;

    fn next(&mut self) -> Option<Self::Item> {
        if self.is_over {
            return None;
        }
        let (mut code, mut found) = picky_der_sys::next(self.bytes, &mut self.place, &mut self.ends);
        while code == PICKY_DER_NO_ROOM {
            self.ends.resize(2 * self.ends.len(), 0);
            (code, found) = picky_der_sys::next(self.bytes, &mut self.place, &mut self.ends);
        }
        let item = Error::of(code, self.place.offset).map(|()| Element::of(self.bytes, &found));
        self.is_over = item.is_err();
        if code == PICKY_DER_END {
            return None;
        }
        Some(item)
    }
}

impl std::iter::FusedIterator for Elements<'_> {}

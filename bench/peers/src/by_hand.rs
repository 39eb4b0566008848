//! By hand, as one writes it for these types alone: a slice that gets shorter, and a vector into which each length is
//! put when its content is there. No error says where it is.
mod certificate;

use crate::{Kind, Library, TestStruct};
use certificate::{Certificate, Key};

/// The elements that are left of a content, or of an input.
pub struct Elements<'a>(&'a [u8]);

/// A length past 127 and what comes after it. It has to be in its shortest form.
fn long_length(first: u8, rest: &[u8]) -> Option<(usize, &[u8])> {
    let count = usize::from(first & 0x7F);
    if count == 0 || count > size_of::<usize>() || count > rest.len() || rest[0] == 0 {
        return None;
    }
    let (octets, rest) = rest.split_at(count);
    let length = octets.iter().fold(0, |length, octet| length << 8 | usize::from(*octet));
    (length > 0x7F).then_some((length, rest))
}

/// The contents of the first element, and what comes after it.
fn split(bytes: &[u8]) -> Option<(&[u8], &[u8])> {
    let (&first, rest) = bytes.get(1..)?.split_first()?;
    let (length, rest) = if first < 0x80 { (usize::from(first), rest) } else { long_length(first, rest)? };
    rest.split_at_checked(length)
}

impl<'a> Elements<'a> {
    pub fn is_next(&self, tag: u8) -> bool {
        self.0.first() == Some(&tag)
    }

    /// The content of the next element, which has this tag.
    pub fn content(&mut self, tag: u8) -> Option<&'a [u8]> {
        if !self.is_next(tag) {
            return None;
        }
        let (content, rest) = split(self.0)?;
        self.0 = rest;
        Some(content)
    }

    /// The next element with its header, whose tag has one byte.
    pub fn raw(&mut self) -> Option<&'a [u8]> {
        let all = self.0;
        if all.first()? & 0x1F == 0x1F {
            return None;
        }
        self.0 = split(all)?.1;
        Some(&all[..all.len() - self.0.len()])
    }

    /// What `read` makes of all elements in the next one, which has this tag.
    pub fn inside<T>(&mut self, tag: u8, read: impl FnOnce(&mut Elements<'a>) -> Option<T>) -> Option<T> {
        let mut inner = Elements(self.content(tag)?);
        let value = read(&mut inner)?;
        inner.0.is_empty().then_some(value)
    }

    /// What `read` makes of each element in the next one, which has this tag.
    pub fn each<T>(&mut self, tag: u8, read: impl Fn(&mut Elements<'a>) -> Option<T>) -> Option<Vec<T>> {
        self.inside(tag, |inner| {
            let mut all = Vec::new();
            while !inner.0.is_empty() {
                all.push(read(inner)?);
            }
            Some(all)
        })
    }

    /// The same for a SET OF, whose elements have to be in order.
    pub fn each_in_order<T>(&mut self, read: impl Fn(&mut Elements<'a>) -> Option<T>) -> Option<Vec<T>> {
        self.inside(0x31, |inner| {
            let (mut all, mut last) = (Vec::new(), &[][..]);
            while !inner.0.is_empty() {
                let before = inner.0;
                all.push(read(inner)?);
                let element = &before[..before.len() - inner.0.len()];
                if last > element {
                    return None;
                }
                last = element;
            }
            Some(all)
        })
    }

    /// The bytes of a number of any size.
    pub fn integer(&mut self) -> Option<&'a [u8]> {
        match self.content(0x02)? {
            [] | [0, 0..=0x7F, ..] | [0xFF, 0x80..=0xFF, ..] => None,
            content => Some(content),
        }
    }

    fn unsigned(&mut self) -> Option<u64> {
        let octets = match self.integer()? {
            [0x80..=0xFF, ..] => return None,
            [0, rest @ ..] => rest,
            octets => octets,
        };
        let add = |number, octet: &u8| number << 8 | u64::from(*octet);
        (octets.len() <= 8).then(|| octets.iter().fold(0, add))
    }

    fn test_struct(&mut self) -> Option<TestStruct> {
        self.inside(0x30, |it| {
            let number = it.unsigned()?.try_into().ok()?;
            let vec = it.content(0x04)?.to_vec();
            let tuple = it.inside(0x30, |it| Some((it.unsigned()?, it.content(0x05)?.is_empty().then_some(())?)))?;
            Some(TestStruct { number, vec, tuple })
        })
    }
}

/// What `read` makes of all these bytes.
fn whole<'a, T>(bytes: &'a [u8], read: impl FnOnce(&mut Elements<'a>) -> Option<T>) -> T {
    let mut elements = Elements(bytes);
    let value = read(&mut elements).expect("DER");
    assert!(elements.0.is_empty());
    value
}

/// The bytes that are written.
pub struct Output(Vec<u8>);

impl Output {
    fn new() -> Output {
        Output(Vec::with_capacity(64))
    }

    pub fn raw(&mut self, bytes: &[u8]) {
        self.0.extend_from_slice(bytes);
    }

    /// A header. The length is of usize's bytes without the zeros at their front.
    fn header(&mut self, tag: u8, length: usize) {
        if length < 0x80 {
            return self.raw(&[tag, length as u8]);
        }
        let octets = length.to_be_bytes();
        let octets = &octets[length.leading_zeros() as usize / 8..];
        self.raw(&[tag, 0x80 | octets.len() as u8]);
        self.raw(octets);
    }

    pub fn content(&mut self, tag: u8, content: &[u8]) {
        self.header(tag, content.len());
        self.raw(content);
    }

    /// An element with what `write` writes in it.
    pub fn enclose(&mut self, tag: u8, write: impl FnOnce(&mut Output)) {
        self.raw(&[tag, 0]);
        let start = self.0.len();
        write(self);
        let length = self.0.len() - start;
        if length < 0x80 {
            self.0[start - 1] = length as u8;
        } else {
            self.make_room(start, length);
        }
    }

    /// Moves a content, and puts a length past 127 before it.
    fn make_room(&mut self, start: usize, length: usize) {
        let octets = length.to_be_bytes();
        let octets = &octets[length.leading_zeros() as usize / 8..];
        self.raw(octets);
        self.0.copy_within(start..start + length, start + octets.len());
        self.0[start - 1] = 0x80 | octets.len() as u8;
        self.0[start..start + octets.len()].copy_from_slice(octets);
    }

    /// A SET OF: `write` writes each of its values.
    pub fn set<T>(&mut self, values: &[T], write: impl Fn(&mut Output, &T)) {
        if let [only] = values {
            return self.enclose(0x31, |to| write(to, only));
        }
        let encoding = |value| {
            let mut alone = Output::new();
            write(&mut alone, value);
            alone.0
        };
        let mut encodings: Vec<Vec<u8>> = values.iter().map(encoding).collect();
        encodings.sort();
        self.enclose(0x31, |to| encodings.iter().for_each(|it| to.raw(it)));
    }

    fn unsigned(&mut self, number: u64) {
        let octets = number.to_be_bytes();
        let start = number.leading_zeros() as usize / 8;
        match octets.get(start..) {
            None | Some([]) => self.content(0x02, &[0]),
            Some(octets @ [0..=0x7F, ..]) => self.content(0x02, octets),
            Some(octets) => {
                self.raw(&[0x02, octets.len() as u8 + 1, 0]);
                self.raw(octets);
            }
        }
    }

    fn test_struct(&mut self, value: &TestStruct) {
        self.enclose(0x30, |to| {
            to.unsigned(value.number.into());
            to.content(0x04, &value.vec);
            to.enclose(0x30, |to| {
                to.unsigned(value.tuple.0);
                to.content(0x05, &[]);
            });
        });
    }
}

/// What `write` writes.
fn written(write: impl FnOnce(&mut Output)) -> Vec<u8> {
    let mut output = Output::new();
    write(&mut output);
    output.0
}

pub struct Hand;

impl Library for Hand {
    const NAME: &'static str = "hand";
    const BORROWS: bool = true;

    fn write_struct(value: &TestStruct) -> Vec<u8> {
        written(|to| to.test_struct(value))
    }

    fn read_struct(bytes: &[u8]) -> TestStruct {
        whole(bytes, Elements::test_struct)
    }

    fn write_structs(values: &[TestStruct]) -> Vec<u8> {
        written(|to| to.enclose(0x30, |to| values.iter().for_each(|it| to.test_struct(it))))
    }

    fn read_structs(bytes: &[u8]) -> Vec<TestStruct> {
        whole(bytes, |it| it.each(0x30, Elements::test_struct))
    }

    fn write_octets(content: &[u8]) -> Vec<u8> {
        written(|to| to.content(0x04, content))
    }

    fn read_octets(bytes: &[u8]) -> Vec<u8> {
        whole(bytes, |it| it.content(0x04)).to_vec()
    }

    type Key = Keys;
    type Certificate = Certificates;
}

pub struct Keys;

impl Kind for Keys {
    type Parsed<'a> = Key<&'a [u8]>;
    type Owned = Key<Vec<u8>>;

    fn parse(bytes: &[u8]) -> Key<&[u8]> {
        whole(bytes, Key::read)
    }

    fn write(key: &Key<&[u8]>) -> Vec<u8> {
        written(|to| key.write(to))
    }

    fn read(bytes: &[u8]) -> Key<Vec<u8>> {
        whole(bytes, Key::read)
    }
}

pub struct Certificates;

impl Kind for Certificates {
    type Parsed<'a> = Certificate<&'a [u8]>;
    type Owned = Certificate<Vec<u8>>;

    fn parse(bytes: &[u8]) -> Certificate<&[u8]> {
        whole(bytes, Certificate::read)
    }

    fn write(certificate: &Certificate<&[u8]>) -> Vec<u8> {
        written(|to| certificate.write(to))
    }

    fn read(bytes: &[u8]) -> Certificate<Vec<u8>> {
        whole(bytes, Certificate::read)
    }
}

//! Certificates by hand, whose contents are borrowed or copied. Numbers, identifiers, bits and bools are checked, and
//! the order of sets. Times aren't.
use super::{Elements, Output};

/// Bytes that are borrowed from the input, or a copy of them.
pub trait Content<'a>: AsRef<[u8]> + From<&'a [u8]> {}

impl<'a> Content<'a> for &'a [u8] {}
impl<'a> Content<'a> for Vec<u8> {}

/// An object identifier: each of its numbers is in its shortest form, and the last one ends.
fn identifier<'a, B: Content<'a>>(from: &mut Elements<'a>) -> Option<B> {
    let content = from.content(0x06)?;
    let mut is_first = true;
    for octet in content {
        if is_first && *octet == 0x80 {
            return None;
        }
        is_first = *octet < 0x80;
    }
    (is_first && !content.is_empty()).then(|| content.into())
}

/// The content of a bit string: how many bits of the last byte are unused, which are zeros, and the bytes.
fn bits<'a, B: Content<'a>>(from: &mut Elements<'a>, tag: u8) -> Option<B> {
    let content = from.content(tag)?;
    let is_right = match content {
        [0] => true,
        [unused @ 0..=7, .., last] => last.trailing_zeros() >= u32::from(*unused),
        _ => false,
    };
    is_right.then(|| content.into())
}

fn optional_bits<'a, B: Content<'a>>(from: &mut Elements<'a>, tag: u8) -> Option<Option<B>> {
    if from.is_next(tag) { Some(Some(bits(from, tag)?)) } else { Some(None) }
}

struct Algorithm<B> {
    algorithm: B,
    parameters: Option<B>,
}

impl<'a, B: Content<'a>> Algorithm<B> {
    fn read(from: &mut Elements<'a>) -> Option<Self> {
        from.inside(0x30, |it| {
            let algorithm = identifier(it)?;
            let parameters = if it.0.is_empty() { None } else { Some(it.raw()?.into()) };
            Some(Algorithm { algorithm, parameters })
        })
    }

    fn write(&self, to: &mut Output) {
        to.enclose(0x30, |to| {
            to.content(0x06, self.algorithm.as_ref());
            if let Some(parameters) = &self.parameters {
                to.raw(parameters.as_ref());
            }
        });
    }
}

pub struct Key<B> {
    algorithm: Algorithm<B>,
    key: B,
}

impl<'a, B: Content<'a>> Key<B> {
    pub fn read(from: &mut Elements<'a>) -> Option<Self> {
        from.inside(0x30, |it| Some(Key { algorithm: Algorithm::read(it)?, key: bits(it, 0x03)? }))
    }

    pub fn write(&self, to: &mut Output) {
        to.enclose(0x30, |to| {
            self.algorithm.write(to);
            to.content(0x03, self.key.as_ref());
        });
    }
}

struct Attribute<B> {
    kind: B,
    value: B,
}

/// The steps of a name, each a set of attributes.
struct Name<B>(Vec<Vec<Attribute<B>>>);

impl<'a, B: Content<'a>> Name<B> {
    fn read(from: &mut Elements<'a>) -> Option<Self> {
        let attribute =
            |it: &mut Elements<'a>| it.inside(0x30, |it| Some(Attribute { kind: identifier(it)?, value: it.raw()?.into() }));
        from.each(0x30, |it| it.each_in_order(attribute)).map(Name)
    }

    fn write(&self, to: &mut Output) {
        let attribute = |to: &mut Output, it: &Attribute<B>| {
            to.enclose(0x30, |to| {
                to.content(0x06, it.kind.as_ref());
                to.raw(it.value.as_ref());
            });
        };
        to.enclose(0x30, |to| self.0.iter().for_each(|step| to.set(step, attribute)));
    }
}

enum Time<B> {
    Utc(B),
    Generalized(B),
}

impl<'a, B: Content<'a>> Time<B> {
    fn read(from: &mut Elements<'a>) -> Option<Self> {
        if from.is_next(0x17) {
            return Some(Time::Utc(from.content(0x17)?.into()));
        }
        Some(Time::Generalized(from.content(0x18)?.into()))
    }

    fn write(&self, to: &mut Output) {
        match self {
            Time::Utc(text) => to.content(0x17, text.as_ref()),
            Time::Generalized(text) => to.content(0x18, text.as_ref()),
        }
    }
}

struct Extension<B> {
    id: B,
    critical: bool,
    value: B,
}

impl<'a, B: Content<'a>> Extension<B> {
    fn read(from: &mut Elements<'a>) -> Option<Self> {
        from.inside(0x30, |it| {
            let id = identifier(it)?;
            let critical = it.is_next(0x01);
            if critical && it.content(0x01)? != [0xFF] {
                return None;
            }
            Some(Extension { id, critical, value: it.content(0x04)?.into() })
        })
    }

    fn write(&self, to: &mut Output) {
        to.enclose(0x30, |to| {
            to.content(0x06, self.id.as_ref());
            if self.critical {
                to.content(0x01, &[0xFF]);
            }
            to.content(0x04, self.value.as_ref());
        });
    }
}

/// The signed part of a certificate.
struct Signed<B> {
    /// 0 isn't written.
    version: u8,
    serial_number: B,
    signature: Algorithm<B>,
    issuer: Name<B>,
    validity: (Time<B>, Time<B>),
    subject: Name<B>,
    key: Key<B>,
    issuer_id: Option<B>,
    subject_id: Option<B>,
    extensions: Option<Vec<Extension<B>>>,
}

fn version(from: &mut Elements) -> Option<u8> {
    if !from.is_next(0xA0) {
        return Some(0);
    }
    match from.inside(0xA0, Elements::integer)? {
        [number @ 1..=0x7F] => Some(*number),
        _ => None,
    }
}

impl<'a, B: Content<'a>> Signed<B> {
    fn read(from: &mut Elements<'a>) -> Option<Self> {
        from.inside(0x30, |it| {
            Some(Signed {
                version: version(it)?,
                serial_number: it.integer()?.into(),
                signature: Algorithm::read(it)?,
                issuer: Name::read(it)?,
                validity: it.inside(0x30, |it| Some((Time::read(it)?, Time::read(it)?)))?,
                subject: Name::read(it)?,
                key: Key::read(it)?,
                issuer_id: optional_bits(it, 0x81)?,
                subject_id: optional_bits(it, 0x82)?,
                extensions: match it.is_next(0xA3) {
                    true => Some(it.inside(0xA3, |it| it.each(0x30, Extension::read))?),
                    false => None,
                },
            })
        })
    }

    fn write(&self, to: &mut Output) {
        to.enclose(0x30, |to| {
            if self.version != 0 {
                to.enclose(0xA0, |to| to.content(0x02, &[self.version]));
            }
            to.content(0x02, self.serial_number.as_ref());
            self.signature.write(to);
            self.issuer.write(to);
            to.enclose(0x30, |to| {
                self.validity.0.write(to);
                self.validity.1.write(to);
            });
            self.subject.write(to);
            self.key.write(to);
            for (tag, id) in [(0x81, &self.issuer_id), (0x82, &self.subject_id)] {
                if let Some(id) = id {
                    to.content(tag, id.as_ref());
                }
            }
            if let Some(extensions) = &self.extensions {
                to.enclose(0xA3, |to| to.enclose(0x30, |to| extensions.iter().for_each(|it| it.write(to))));
            }
        });
    }
}

pub struct Certificate<B> {
    signed: Signed<B>,
    algorithm: Algorithm<B>,
    signature: B,
}

impl<'a, B: Content<'a>> Certificate<B> {
    pub fn read(from: &mut Elements<'a>) -> Option<Self> {
        from.inside(0x30, |it| {
            Some(Certificate {
                signed: Signed::read(it)?,
                algorithm: Algorithm::read(it)?,
                signature: bits(it, 0x03)?,
            })
        })
    }

    pub fn write(&self, to: &mut Output) {
        to.enclose(0x30, |to| {
            self.signed.write(to);
            self.algorithm.write(to);
            to.content(0x03, self.signature.as_ref());
        });
    }
}

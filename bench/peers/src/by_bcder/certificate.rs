//! Certificates by `bcder`, which copies the contents where it reads a slice.
use bcder::decode::{Constructed, Error, Source};
use bcder::encode::{self, PrimitiveContent, Values};
use bcder::{BitString, Captured, Integer, OctetString, Oid, Tag};
use bytes::Bytes;

struct Algorithm {
    algorithm: Oid,
    parameters: Option<Captured>,
}

pub struct Key {
    algorithm: Algorithm,
    key: BitString,
}

struct Attribute {
    kind: Oid,
    value: Captured,
}

struct Extension {
    id: Oid,
    critical: bool,
    value: OctetString,
}

type Name = Vec<Vec<Attribute>>;
type Time = (Tag, Bytes);

struct Signed {
    version: u8,
    serial_number: Integer,
    signature: Algorithm,
    issuer: Name,
    validity: (Time, Time),
    subject: Name,
    key: Key,
    ids: (Option<BitString>, Option<BitString>),
    extensions: Option<Vec<Extension>>,
}

pub struct Certificate {
    signed: Signed,
    algorithm: Algorithm,
    signature: BitString,
}

type Taken<T, S> = Result<T, <S as Source>::Err>;

/// What the function takes, until it finds no more.
fn all<T, S: Source>(cons: &mut Constructed<S>, take: impl Fn(&mut Constructed<S>) -> Taken<Option<T>, S>) -> Taken<Vec<T>, S> {
    let mut members = Vec::new();
    while let Some(it) = take(cons)? {
        members.push(it);
    }
    Ok(members)
}

impl Algorithm {
    fn take<S: Source>(cons: &mut Constructed<S>) -> Taken<Algorithm, S> {
        cons.take_sequence(|cons| {
            let algorithm = Oid::take_from(cons)?;
            let parameters = cons.capture_all()?;
            Ok(Algorithm { algorithm, parameters: Some(parameters).filter(|it| !it.as_slice().is_empty()) })
        })
    }

    fn values(&self) -> impl Values + '_ {
        encode::sequence((self.algorithm.encode_ref(), self.parameters.as_ref()))
    }
}

impl Key {
    pub fn take<S: Source>(cons: &mut Constructed<S>) -> Taken<Key, S> {
        cons.take_sequence(|cons| Ok(Key { algorithm: Algorithm::take(cons)?, key: BitString::take_from(cons)? }))
    }

    pub fn values(&self) -> impl Values + '_ {
        encode::sequence((self.algorithm.values(), self.key.encode_ref()))
    }
}

impl Attribute {
    fn take<S: Source>(cons: &mut Constructed<S>) -> Taken<Attribute, S> {
        Ok(Attribute { kind: Oid::take_from(cons)?, value: cons.capture_one()? })
    }

    fn values(&self) -> impl Values + '_ {
        encode::sequence((self.kind.encode_ref(), &self.value))
    }
}

impl Extension {
    fn take<S: Source>(cons: &mut Constructed<S>) -> Taken<Extension, S> {
        let id = Oid::take_from(cons)?;
        let critical = cons.take_opt_bool()?.unwrap_or(false);
        Ok(Extension { id, critical, value: OctetString::take_from(cons)? })
    }

    fn values(&self) -> impl Values + '_ {
        encode::sequence((self.id.encode_ref(), self.critical.then(|| true.encode()), self.value.encode_ref()))
    }
}

fn take_name<S: Source>(cons: &mut Constructed<S>) -> Taken<Name, S> {
    let take_set = |cons: &mut Constructed<S>| cons.take_opt_set(|cons| all(cons, |cons| cons.take_opt_sequence(Attribute::take)));
    cons.take_sequence(|cons| all(cons, take_set))
}

fn set_values(set: &Vec<Attribute>) -> impl Values + '_ {
    encode::set(encode::iter(set.iter().map(Attribute::values)))
}

fn name_values(name: &Name) -> impl Values + '_ {
    encode::sequence(encode::iter(name.iter().map(set_values)))
}

fn take_time<S: Source>(cons: &mut Constructed<S>) -> Taken<Time, S> {
    cons.take_primitive(|tag, content| match tag {
        Tag::UTC_TIME | Tag::GENERALIZED_TIME => Ok((tag, content.take_all()?)),
        _ => Err(Error::Malformed.into()),
    })
}

fn time_values((tag, content): &Time) -> impl Values + '_ {
    (&content[..]).encode_as(*tag)
}

fn take_id<S: Source>(cons: &mut Constructed<S>, tag: Tag) -> Taken<Option<BitString>, S> {
    cons.take_opt_value_if(tag, |content| BitString::from_content(content))
}

impl Signed {
    fn take<S: Source>(cons: &mut Constructed<S>) -> Taken<Signed, S> {
        Ok(Signed {
            version: cons.take_opt_constructed_if(Tag::CTX_0, |cons| cons.take_u8())?.unwrap_or(0),
            serial_number: Integer::take_from(cons)?,
            signature: Algorithm::take(cons)?,
            issuer: take_name(cons)?,
            validity: cons.take_sequence(|cons| Ok((take_time(cons)?, take_time(cons)?)))?,
            subject: take_name(cons)?,
            key: Key::take(cons)?,
            ids: (take_id(cons, Tag::CTX_1)?, take_id(cons, Tag::CTX_2)?),
            extensions: cons.take_opt_constructed_if(Tag::CTX_3, |cons| {
                cons.take_sequence(|cons| all(cons, |cons| cons.take_opt_sequence(Extension::take)))
            })?,
        })
    }

    fn values(&self) -> impl Values + '_ {
        let version = (self.version != 0).then(|| encode::sequence_as(Tag::CTX_0, self.version.encode()));
        let extensions = self.extensions.as_ref().map(|it| {
            encode::sequence_as(Tag::CTX_3, encode::sequence(encode::iter(it.iter().map(Extension::values))))
        });
        encode::sequence((
            (version, (&self.serial_number).encode(), self.signature.values(), name_values(&self.issuer)),
            encode::sequence((time_values(&self.validity.0), time_values(&self.validity.1))),
            name_values(&self.subject),
            self.key.values(),
            self.ids.0.as_ref().map(|it| it.encode_ref_as(Tag::CTX_1)),
            self.ids.1.as_ref().map(|it| it.encode_ref_as(Tag::CTX_2)),
            extensions,
        ))
    }
}

impl Certificate {
    pub fn take<S: Source>(cons: &mut Constructed<S>) -> Taken<Certificate, S> {
        cons.take_sequence(|cons| {
            let signed = cons.take_sequence(Signed::take)?;
            Ok(Certificate { signed, algorithm: Algorithm::take(cons)?, signature: BitString::take_from(cons)? })
        })
    }

    pub fn values(&self) -> impl Values + '_ {
        encode::sequence((self.signed.values(), self.algorithm.values(), self.signature.encode_ref()))
    }
}

//! By `bcder`.
mod certificate;

use crate::{Kind, Library, TestStruct};
use bcder::decode::Constructed;
use bcder::encode::{self, PrimitiveContent, Values};
use bcder::{Mode, OctetString};
use certificate::{Certificate, Key};

pub struct Bcder;

fn take_struct<S: bcder::decode::Source>(cons: &mut Constructed<S>) -> Result<TestStruct, S::Err> {
    cons.take_sequence(take_fields)
}

fn take_fields<S: bcder::decode::Source>(cons: &mut Constructed<S>) -> Result<TestStruct, S::Err> {
    let number = cons.take_u8()?;
    let vec = OctetString::take_from(cons)?.to_bytes().to_vec();
    let tuple = cons.take_sequence(|cons| Ok((cons.take_u64()?, cons.take_null()?)))?;
    Ok(TestStruct { number, vec, tuple })
}

fn values(value: &TestStruct) -> impl Values + '_ {
    let tuple = encode::sequence((value.tuple.0.encode(), value.tuple.1.encode()));
    encode::sequence((value.number.encode(), OctetString::encode_slice(&value.vec[..]), tuple))
}

fn written(values: impl Values) -> Vec<u8> {
    let mut bytes = Vec::with_capacity(values.encoded_len(Mode::Der));
    values.write_encoded(Mode::Der, &mut bytes).unwrap();
    bytes
}

impl Library for Bcder {
    const NAME: &'static str = "bcder";
    const BORROWS: bool = false;

    fn write_struct(value: &TestStruct) -> Vec<u8> {
        written(values(value))
    }

    fn read_struct(bytes: &[u8]) -> TestStruct {
        Constructed::decode(bytes, Mode::Der, take_struct).unwrap()
    }

    fn write_structs(all: &[TestStruct]) -> Vec<u8> {
        written(encode::sequence(encode::iter(all.iter().map(values))))
    }

    fn read_structs(bytes: &[u8]) -> Vec<TestStruct> {
        let take = |cons: &mut Constructed<&[u8]>| {
            cons.take_sequence(|cons| {
                let mut all = Vec::new();
                while let Some(it) = cons.take_opt_sequence(take_fields)? {
                    all.push(it);
                }
                Ok(all)
            })
        };
        Constructed::decode(bytes, Mode::Der, take).unwrap()
    }

    fn write_octets(content: &[u8]) -> Vec<u8> {
        written(OctetString::encode_slice(content))
    }

    fn read_octets(bytes: &[u8]) -> Vec<u8> {
        let octets = Constructed::decode(bytes, Mode::Der, OctetString::take_from).unwrap();
        octets.to_bytes().to_vec()
    }

    type Key = Key;
    type Certificate = Certificate;
}

impl Kind for Key {
    type Parsed<'a> = Key;
    type Owned = Key;

    fn parse(bytes: &[u8]) -> Key {
        Constructed::decode(bytes, Mode::Der, Key::take).unwrap()
    }

    fn write(key: &Key) -> Vec<u8> {
        written(key.values())
    }

    fn read(bytes: &[u8]) -> Key {
        Self::parse(bytes)
    }
}

impl Kind for Certificate {
    type Parsed<'a> = Certificate;
    type Owned = Certificate;

    fn parse(bytes: &[u8]) -> Certificate {
        Constructed::decode(bytes, Mode::Der, Certificate::take).unwrap()
    }

    fn write(certificate: &Certificate) -> Vec<u8> {
        written(certificate.values())
    }

    fn read(bytes: &[u8]) -> Certificate {
        Self::parse(bytes)
    }
}

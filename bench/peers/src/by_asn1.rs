//! By pyca's `asn1`.
mod certificate;

use crate::{Kind, Library, TestStruct};
use asn1::{Asn1Read, Asn1Write, Null, SequenceOfWriter};
use certificate::{Certificate, Key, List, OwnedCertificate, OwnedKey};

pub struct Asn1;

#[derive(Asn1Read, Asn1Write)]
struct Pair {
    number: u64,
    null: Null,
}

#[derive(Asn1Read, Asn1Write)]
struct Fields<'a> {
    number: u8,
    vec: &'a [u8],
    tuple: Pair,
}

fn fields(value: &TestStruct) -> Fields<'_> {
    Fields { number: value.number, vec: &value.vec, tuple: Pair { number: value.tuple.0, null: () } }
}

fn owned(it: Fields) -> TestStruct {
    TestStruct { number: it.number, vec: it.vec.to_vec(), tuple: (it.tuple.number, it.tuple.null) }
}

impl Library for Asn1 {
    const NAME: &'static str = "asn1";
    const BORROWS: bool = true;

    fn write_struct(value: &TestStruct) -> Vec<u8> {
        asn1::write_single(&fields(value)).unwrap()
    }

    fn read_struct(bytes: &[u8]) -> TestStruct {
        owned(asn1::parse_single(bytes).unwrap())
    }

    fn write_structs(values: &[TestStruct]) -> Vec<u8> {
        let fields: Vec<Fields> = values.iter().map(fields).collect();
        asn1::write_single(&SequenceOfWriter::new(fields)).unwrap()
    }

    fn read_structs(bytes: &[u8]) -> Vec<TestStruct> {
        asn1::parse_single::<List<Fields>>(bytes).unwrap().0.into_iter().map(owned).collect()
    }

    fn write_octets(content: &[u8]) -> Vec<u8> {
        asn1::write_single(&content).unwrap()
    }

    fn read_octets(bytes: &[u8]) -> Vec<u8> {
        asn1::parse_single::<&[u8]>(bytes).unwrap().to_vec()
    }

    type Key = Keys;
    type Certificate = Certificates;
}

pub struct Keys;

impl Kind for Keys {
    type Parsed<'a> = Key<'a>;
    type Owned = OwnedKey;

    fn parse(bytes: &[u8]) -> Key<'_> {
        asn1::parse_single(bytes).unwrap()
    }

    fn write(key: &Key) -> Vec<u8> {
        asn1::write_single(key).unwrap()
    }

    fn read(bytes: &[u8]) -> OwnedKey {
        Self::parse(bytes).owned()
    }
}

pub struct Certificates;

impl Kind for Certificates {
    type Parsed<'a> = Certificate<'a>;
    type Owned = OwnedCertificate;

    fn parse(bytes: &[u8]) -> Certificate<'_> {
        asn1::parse_single(bytes).unwrap()
    }

    fn write(certificate: &Certificate) -> Vec<u8> {
        asn1::write_single(certificate).unwrap()
    }

    fn read(bytes: &[u8]) -> OwnedCertificate {
        Self::parse(bytes).owned()
    }
}

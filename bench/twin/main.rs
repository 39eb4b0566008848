//! Writes or reads each line of hexadecimal digits of standard input many times.
//!
//!     twin struct|structs|list|set|certificate write|read|read-whole TIMES < ENCODINGS
//!
//! A list and a set are of numbers. `read` is by `from_bytes`, and `read-whole` by `from_der`, whose error has a position.
//! With the configuration `paths` the program also has the table of a certificate, by which it looks for the path of an
//! error.
mod certificate;
#[cfg(paths)]
mod table;

use certificate::Certificate;
use picky_der_core::Result;
use picky_der_core::asn1::{Asn1SetOf, ByteBuf};
use picky_der_core::misc::{ReadExt, WriteExt};
use picky_der_de::{Deserialize, Deserializer, Struct, deserialize_struct_as, from_bytes, from_der};
use picky_der_ser::{Serialize, SerializeMembers, Serializer, to_vec};
use rattle_std::alloc::Global;
use rattle_std::prelude::*;
use std::hint::black_box;

#[derive(PartialEq)]
struct TestStruct {
    number: u8,
    vec: ByteBuf,
    tuple: (usize, ()),
}

type Members = (u8, ByteBuf, (usize, ()), ());

impl Struct for TestStruct {
    type Members = Members;

    fn from_parts(members: Members) -> TestStruct {
        let (number, vec, tuple, ()) = members;
        TestStruct { number, vec, tuple }
    }
}

impl Serialize for TestStruct {
    fn serialize<W: WriteExt>(&self, serializer: &mut Serializer<W>) -> Result<usize> {
        (&self.number, &self.vec, &self.tuple, ()).serialize_sequence(serializer)
    }
}

impl Deserialize for TestStruct {
    fn deserialize<R: ReadExt>(deserializer: &mut Deserializer<R>) -> Result<TestStruct> {
        deserialize_struct_as(deserializer)
    }
}

#[inline(never)]
fn write<T: Serialize>(value: &T) -> Vec<u8> {
    to_vec(Global, value).unwrap()
}

#[inline(never)]
fn read<T: Deserialize>(bytes: &[u8]) -> T {
    from_bytes(Global, bytes).unwrap()
}

#[inline(never)]
fn read_whole<T: Deserialize>(bytes: &[u8]) -> T {
    match from_der(Global, bytes) {
        Ok(value) => value,
        Err(error) => panic!("refused at {}", place_of(bytes, error.position)),
    }
}

#[cfg(paths)]
#[cold]
#[inline(never)]
fn place_of(bytes: &[u8], position: usize) -> usize {
    let path = der_error_path::path_of_error(Global, table::certificate(), bytes, position).unwrap();
    println!("{:?}", path.steps.as_slice());
    path.place
}

#[cfg(not(paths))]
#[cold]
#[inline(never)]
fn place_of(_bytes: &[u8], position: usize) -> usize {
    position
}

fn bytes_of(digits: &str) -> Vec<u8> {
    let mut bytes = Vec::new(Global);
    for place in (0..digits.len()).step_by(2) {
        bytes.push(u8::from_str_radix(&digits[place..place + 2], 16).unwrap()).unwrap();
    }
    bytes
}

fn run<T: Serialize + Deserialize>(bytes: &[u8], way: &str, times: u32) {
    let value = read::<T>(bytes);
    assert_eq!(write(&value).as_slice(), bytes);
    for _ in 0..times {
        match way {
            "write" => drop(black_box(write(black_box(&value)))),
            "read-whole" => drop(black_box(read_whole::<T>(black_box(bytes)))),
            _ => drop(black_box(read::<T>(black_box(bytes)))),
        }
    }
}

fn main() {
    let words: std::vec::Vec<std::string::String> = std::env::args().skip(1).collect();
    let times = words[2].parse().unwrap();
    for line in std::io::stdin().lines() {
        let bytes = bytes_of(&line.unwrap());
        match words[0].as_str() {
            "struct" => run::<TestStruct>(&bytes, &words[1], times),
            "structs" => run::<Vec<TestStruct>>(&bytes, &words[1], times),
            "list" => run::<Vec<u32>>(&bytes, &words[1], times),
            "set" => run::<Asn1SetOf<u32>>(&bytes, &words[1], times),
            _ => run::<Certificate>(&bytes, &words[1], times),
        }
    }
}

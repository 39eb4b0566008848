//! Makes DER of values in BER by their types, many times.
//!
//!     twin_ber TIMES < ROWS
//!     twin_ber once TYPE FILE
//!
//! A row is a type and hexadecimal digits. The types are `Certificate` and `DigestedData`. `once` prints the most memory
//! that the program had, in kB.
mod cms;
mod x509;

use der_ber_types::to_der;
use der_schema::Schema;
use rattle_std::alloc::Global;
use std::env;
use std::fs;
use std::hint::black_box;
use std::io;

fn schema_of(name: &str) -> Schema {
    match name {
        "Certificate" => x509::certificate(),
        "DigestedData" => cms::digested_data(),
        _ => panic!("no type {name}"),
    }
}

fn bytes_of(digits: &str) -> Vec<u8> {
    let places = (0..digits.len()).step_by(2);
    places.map(|place| u8::from_str_radix(&digits[place..place + 2], 16).unwrap()).collect()
}

fn most_memory() -> String {
    let status = fs::read_to_string("/proc/self/status").unwrap();
    let line = status.lines().find(|line| line.starts_with("VmHWM:")).unwrap();
    line.split_whitespace().nth(1).unwrap().to_string()
}

fn main() {
    let words: Vec<String> = env::args().skip(1).collect();
    if words[0] == "once" {
        let bytes = fs::read(&words[2]).unwrap();
        assert!(to_der(Global, schema_of(&words[1]), &bytes).is_ok());
        println!("{}", most_memory());
        return;
    }
    let times: u32 = words[0].parse().unwrap();
    for row in io::stdin().lines() {
        let row = row.unwrap();
        let (name, digits) = row.split_once(' ').unwrap();
        let bytes = bytes_of(digits);
        for _ in 0..times {
            assert!(to_der(Global, schema_of(name), black_box(&bytes)).is_ok());
        }
    }
}

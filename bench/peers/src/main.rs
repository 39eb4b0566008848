//! The jobs of the project's driver, done by hand and by two Rust libraries. What is read is copied out of the input,
//! as the project does.
//!
//!     peers FILE LIBRARY                   prints lines `LIBRARY JOB write|read NUMBER ps`, the least of the rounds
//!     peers FILE LIBRARY JOB WAY ROUNDS    does one job alone, as often, for valgrind
//!
//! The library is `hand`, or `asn1` or `bcder` if the program was built with this feature. The job
//! `certificates-borrowed` only reads, and nothing is copied. The file has a line `key HEX` or `certificate HEX` for
//! each encoding of X.509. Other lines aren't read.
use std::hint::black_box;
use std::time::Instant;

#[cfg(feature = "asn1")]
mod by_asn1;
#[cfg(feature = "bcder")]
mod by_bcder;
mod by_hand;

/// The structure of the project's driver.
#[derive(Clone, Debug, PartialEq)]
pub struct TestStruct {
    pub number: u8,
    pub vec: Vec<u8>,
    pub tuple: (u64, ()),
}

fn test_struct() -> TestStruct {
    TestStruct { number: 7, vec: b"Testolope".to_vec(), tuple: (4, ()) }
}

/// A type of X.509, as a library has it.
pub trait Kind {
    /// A value as it is written, which may borrow its contents.
    type Parsed<'a>;
    /// One whose contents are copied.
    type Owned;
    fn parse(bytes: &[u8]) -> Self::Parsed<'_>;
    fn write(value: &Self::Parsed<'_>) -> Vec<u8>;
    fn read(bytes: &[u8]) -> Self::Owned;
}

/// A library that does the jobs.
pub trait Library {
    const NAME: &'static str;
    /// Whether a certificate can be read without a copy of its contents.
    const BORROWS: bool;
    type Key: Kind;
    type Certificate: Kind;
    fn write_struct(value: &TestStruct) -> Vec<u8>;
    fn read_struct(bytes: &[u8]) -> TestStruct;
    fn write_structs(values: &[TestStruct]) -> Vec<u8>;
    fn read_structs(bytes: &[u8]) -> Vec<TestStruct>;
    fn write_octets(content: &[u8]) -> Vec<u8>;
    fn read_octets(bytes: &[u8]) -> Vec<u8>;
}

const ROUNDS: usize = 9;

/// What is done with the jobs of a library: all are timed, or one is repeated one way.
enum Task<'a> {
    Time,
    Repeat { job: &'a str, way: &'a str, rounds: usize },
}

impl Task<'_> {
    fn wants(&self, name: &str) -> bool {
        match self {
            Task::Time => true,
            Task::Repeat { job, .. } => *job == name,
        }
    }

    /// One way of a job that is wanted: each call does all its parts, and a round makes as many calls.
    fn run<L: Library, T>(&self, job: &str, way: &str, (calls, parts): (usize, usize), mut call: impl FnMut() -> T) {
        match self {
            Task::Time => {
                let each = least(calls, call) * 1_000 / calls as u128 / parts as u128;
                println!("{} {job} {way} {each} ps", L::NAME);
            }
            Task::Repeat { way: wanted, rounds, .. } if *wanted == way => {
                (0..*rounds).for_each(|_| drop(black_box(call())));
            }
            Task::Repeat { .. } => (),
        }
    }
}

/// The least time of a round of as many calls, in nanoseconds.
fn least<T>(calls: usize, mut call: impl FnMut() -> T) -> u128 {
    let mut time = || {
        let start = Instant::now();
        for _ in 0..calls {
            black_box(call());
        }
        start.elapsed().as_nanos()
    };
    (0..ROUNDS).map(|_| time()).min().unwrap_or(0)
}

fn run_struct<L: Library>(task: &Task) {
    let one = test_struct();
    let bytes = L::write_struct(&one);
    assert_eq!(bytes.len(), 23);
    assert_eq!(L::read_struct(&bytes), one);
    task.run::<L, _>("struct", "write", (2_000, 1), || L::write_struct(black_box(&one)));
    task.run::<L, _>("struct", "read", (2_000, 1), || L::read_struct(black_box(&bytes)));
}

fn run_structs<L: Library>(task: &Task) {
    let many = vec![test_struct(); 10_000];
    let bytes = L::write_structs(&many);
    assert_eq!(L::read_structs(&bytes), many);
    task.run::<L, _>("structs", "write", (1, many.len()), || L::write_structs(black_box(&many)));
    task.run::<L, _>("structs", "read", (1, many.len()), || L::read_structs(black_box(&bytes)));
}

fn run_octets<L: Library>(task: &Task) {
    let content = vec![0xA5; 1 << 20];
    let bytes = L::write_octets(&content);
    assert_eq!(L::read_octets(&bytes), content);
    task.run::<L, _>("mebibyte", "write", (20, 1), || L::write_octets(black_box(&content)));
    task.run::<L, _>("mebibyte", "read", (20, 1), || L::read_octets(black_box(&bytes)));
}

/// Encodings of a type of X.509: their values are written as they were.
fn run_all<L: Library, K: Kind>(task: &Task, job: &str, encodings: &[Vec<u8>], calls: usize) {
    let values: Vec<_> = encodings.iter().map(|it| K::parse(it)).collect();
    assert!(values.iter().zip(encodings).all(|(it, bytes)| K::write(it) == *bytes));
    let times = (calls, encodings.len());
    task.run::<L, _>(job, "write", times, || values.iter().for_each(|it| drop(black_box(K::write(black_box(it))))));
    task.run::<L, _>(job, "read", times, || encodings.iter().for_each(|it| drop(black_box(K::read(black_box(it))))));
}

/// The same certificates where nothing is copied.
fn run_borrowed<L: Library>(task: &Task, job: &str, encodings: &[Vec<u8>], calls: usize) {
    let parse = |it: &Vec<u8>| drop(black_box(L::Certificate::parse(black_box(it))));
    task.run::<L, _>(job, "read", (calls, encodings.len()), || encodings.iter().for_each(parse));
}

fn run<L: Library>(task: &Task, keys: &[Vec<u8>], certificates: &[Vec<u8>]) {
    if task.wants("struct") {
        run_struct::<L>(task);
    }
    if task.wants("structs") {
        run_structs::<L>(task);
    }
    if task.wants("mebibyte") {
        run_octets::<L>(task);
    }
    if task.wants("keys") {
        run_all::<L, L::Key>(task, "keys", keys, 500);
    }
    if task.wants("certificates") {
        run_all::<L, L::Certificate>(task, "certificates", certificates, 4);
    }
    if L::BORROWS && task.wants("certificates-borrowed") {
        run_borrowed::<L>(task, "certificates-borrowed", certificates, 4);
    }
}

/// The bytes of hexadecimal digits.
fn bytes_of(digits: &str) -> Vec<u8> {
    let digit = |it: u8| (it as char).to_digit(16).expect("a hexadecimal digit") as u8;
    digits.as_bytes().chunks(2).map(|two| digit(two[0]) << 4 | digit(two[1])).collect()
}

fn encodings(text: &str, kind: &str) -> Vec<Vec<u8>> {
    text.lines().filter_map(|line| line.strip_prefix(kind)).map(|digits| bytes_of(digits.trim())).collect()
}

fn main() {
    let words: Vec<String> = std::env::args().skip(1).collect();
    let text = std::fs::read_to_string(&words[0]).expect("a file that can be read");
    let (keys, certificates) = (encodings(&text, "key"), encodings(&text, "certificate"));
    let task = match &words[2..] {
        [] => Task::Time,
        [job, way, rounds] => Task::Repeat { job, way, rounds: rounds.parse().expect("a number") },
        _ => panic!("usage: peers FILE LIBRARY [JOB WAY ROUNDS]"),
    };
    // one library in a process, so that none finds the memory as another left it
    match words[1].as_str() {
        "hand" => run::<by_hand::Hand>(&task, &keys, &certificates),
        #[cfg(feature = "asn1")]
        "asn1" => run::<by_asn1::Asn1>(&task, &keys, &certificates),
        #[cfg(feature = "bcder")]
        "bcder" => run::<by_bcder::Bcder>(&task, &keys, &certificates),
        name => panic!("no library {name}"),
    }
}

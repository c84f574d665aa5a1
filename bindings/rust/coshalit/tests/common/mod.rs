//! What the tests read from the repository's examples.

use coshalit::Root;
use std::fs;
use std::path::Path;

/// A case of a program that writes the byte 2a and exits, of one prover.
pub const CASE: &[u8] =
    br#"{"format":"flat","image":"1305a0029308100073000000130500009308d00573000000","input":"","bound":8,"patience":0,"provers":[{}]}"#;

pub fn example(name: &str) -> Vec<u8> {
    let path = Path::new(env!("CARGO_MANIFEST_DIR")).join("../../../examples").join(name);
    fs::read(&path).unwrap_or_else(|why| panic!("{}: {why}", path.display()))
}

pub fn bytes(digits: &str) -> Vec<u8> {
    (0..digits.len()).step_by(2).map(|at| u8::from_str_radix(&digits[at..at + 2], 16).expect("digits")).collect()
}

pub fn root(digits: &str) -> Root {
    bytes(digits).try_into().expect("64 digits")
}

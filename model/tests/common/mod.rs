//! What the tests share: kits by their text, and a seeded xorshift.

#![allow(dead_code)]

use model::conformance::{self, Kit};
use model::{kit, listing, MachineData};
use std::path::{Path, PathBuf};

/// The bytes of a kit's text.
pub fn bytes(text: &str) -> Vec<u8> {
    match kit::assemble(text) {
        Ok(bytes) => bytes,
        Err(fault) => panic!("{fault}\n{text}"),
    }
}

/// The listing of a kit's text.
pub fn list(text: &str) -> String {
    listing::list(&bytes(text))
}

/// Machine data of a list of 51 that differ from the lowest in these.
pub fn data(stated: &[(usize, i32)]) -> MachineData {
    data_of(51, stated)
}

/// Machine data of a list of so many that differ from the lowest in these.
pub fn data_of(head: usize, stated: &[(usize, i32)]) -> MachineData {
    let mut data = MachineData::lowest(head).data().to_vec();
    for &(number, value) in stated {
        data[number] = value;
    }
    MachineData::new(&data).expect("data in their ranges")
}

/// A seeded xorshift.
pub struct Xorshift(pub u64);

impl Xorshift {
    pub fn next(&mut self) -> u64 {
        self.0 ^= self.0 << 13;
        self.0 ^= self.0 >> 7;
        self.0 ^= self.0 << 17;
        self.0
    }

    pub fn below(&mut self, end: u64) -> u64 {
        self.next() % end
    }
}

/// A folder beside this package.
pub fn beside(folder: &str) -> PathBuf {
    Path::new(env!("CARGO_MANIFEST_DIR"))
        .join("..")
        .join(folder)
}

/// The conformance kits.
pub fn kits() -> Vec<Kit> {
    match conformance::read(&beside("kits")) {
        Ok(kits) => kits,
        Err(faults) => panic!("{faults}"),
    }
}

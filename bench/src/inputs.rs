//! The inputs of about so many bytes, the same for both sides.

use crate::addresses::Addresses;
use crate::diagnostics::Diagnostics;
use crate::settings::Settings;
use crate::writing::Writing;

/// The bytes of the larger inputs: as many as the library takes.
pub const MOST: usize = 16384;

pub struct Input {
    pub dataset: Vec<u8>,
    pub last: u8,
    pub settings: Settings,
    pub hex: Vec<u8>,
    pub ascii: Vec<u8>,
    pub mixed: Vec<u8>,
    pub list: Vec<u8>,
    pub addresses: Addresses,
    pub diag: Diagnostics,
    pub writing: Writing,
}

/// The bytes of an entry of a dataset, and of an operation: MOST bytes are as many of them as the library takes.
pub const ENTRY: usize = 64;

/// Entries, each of another type.
fn dataset(size: usize) -> Vec<u8> {
    (0..size / ENTRY).flat_map(|k| entry(k as u8, ENTRY as u8 - 2)).collect()
}

pub fn entry(ty: u8, len: u8) -> Vec<u8> {
    let mut bytes = vec![ty, len];
    bytes.extend((0..len).map(|k| k.wrapping_mul(7).wrapping_add(ty)));
    bytes
}

/// Operations, each type set twice: the fold keeps half, and what is run on the dataset fits.
fn list(size: usize) -> Vec<u8> {
    (0..size / ENTRY)
        .flat_map(|k| {
            let mut bytes = vec![0x53, 0x45];
            bytes.extend(entry((k / 2) as u8, ENTRY as u8 - 4));
            bytes
        })
        .collect()
}

impl Input {
    pub fn of(size: usize) -> Input {
        let dataset = dataset(size);
        Input {
            last: (size / ENTRY - 1) as u8,
            settings: Settings::of(size),
            hex: hex::encode(&dataset).into_bytes(),
            ascii: (0..size).map(|k| b'a' + (k % 26) as u8).collect(),
            mixed: "aé本😀".bytes().cycle().take(size / 10 * 10).collect(),
            list: list(size),
            addresses: Addresses::of(size),
            diag: Diagnostics::of(size),
            writing: Writing::of(size),
            dataset,
        }
    }
}

//! The Rust's side, by its public functions and the crates that it uses.
use crate::inputs::{Input, MOST};
use crate::settings::{self, INDEX};
use crate::sums;
use meshcop::dataset::Dataset;
use meshcop::meshcop::diag::{ModeData, NetDiagData, NetworkData};
use meshcop::tlv::{TlvEntry, TlvSet};
use std::io::Write;
use std::net::Ipv6Addr;

/// What the library answers for a refusal: 2^63 and its number.
const NONE: u64 = 1 << 63;

pub fn framing(input: &Input, _: &mut [u8]) -> u64 {
    TlvSet::parse(&input.dataset).map_or(NONE, |set| set.entries().len() as u64)
}

pub fn last_value(input: &Input, _: &mut [u8]) -> u64 {
    let set = TlvSet::parse(&input.dataset).expect("a dataset");
    set.last_value(input.last).map_or(0, |value| value.len() as u64)
}

/// The dataset is parsed already.
pub fn twelve(input: &Input, _: &mut [u8]) -> u64 {
    settings::twelve(|ty| input.settings.parsed.last_value(ty).map_or(0, |value| value.len() as u64))
}

/// Not in the Rust: its parse, which it does once before all queries, and then the index of the entries.
pub fn index(dataset: &[u8], out: &mut [u8]) -> u64 {
    let set = TlvSet::parse(dataset).expect("a dataset");
    let mut slots = [[0u16; 2]; 256];
    let mut place = 0;
    for entry in set.entries() {
        let slot = &mut slots[entry.ty as usize];
        *slot = [slot[0] + 1, place];
        // A header of two bytes, since every value here is under 255.
        place += 2 + entry.value.len() as u16;
    }
    out[..2].copy_from_slice(&[0x49, 0x58]);
    for (bytes, number) in out[2..].chunks_exact_mut(2).zip(slots.as_flattened()) {
        bytes.copy_from_slice(&number.to_be_bytes());
    }
    INDEX as u64
}

fn written(bytes: &[u8], out: &mut [u8]) -> u64 {
    out[..bytes.len()].copy_from_slice(bytes);
    bytes.len() as u64
}

pub fn rewrite(input: &Input, out: &mut [u8]) -> u64 {
    let set = TlvSet::parse(&input.dataset).expect("a dataset");
    written(&set.encode().expect("a dataset"), out)
}

pub fn hex_in(input: &Input, out: &mut [u8]) -> u64 {
    let half = input.hex.len() / 2;
    hex::decode_to_slice(&input.hex, &mut out[..half]).map_or(NONE, |()| half as u64)
}

pub fn hex_out(input: &Input, out: &mut [u8]) -> u64 {
    let twice = input.dataset.len() * 2;
    hex::encode_to_slice(&input.dataset, &mut out[..twice]).map_or(NONE, |()| twice as u64)
}

/// All texts, one after another.
pub fn addr_text(input: &Input, out: &mut [u8]) -> u64 {
    let room = out.len();
    let mut rest = out;
    for &bytes in &input.addresses.bytes {
        write!(rest, "{}", Ipv6Addr::from(bytes)).expect("room");
    }
    (room - rest.len()) as u64
}

/// All addresses, one after another.
pub fn addr_in(input: &Input, out: &mut [u8]) -> u64 {
    let mut at = 0;
    for text in &input.addresses.texts {
        let address: Ipv6Addr = std::str::from_utf8(text).expect("a text").parse().expect("an address");
        at += written(&address.octets(), &mut out[at..]) as usize;
    }
    at as u64
}

pub fn utf8_ascii(input: &Input, _: &mut [u8]) -> u64 {
    u64::from(std::str::from_utf8(&input.ascii).is_ok())
}

pub fn utf8_mixed(input: &Input, _: &mut [u8]) -> u64 {
    u64::from(std::str::from_utf8(&input.mixed).is_ok())
}

/// The list's operations, one by one, by the Rust's own edits.
pub fn run(input: &Input, out: &mut [u8]) -> u64 {
    let mut dataset = Dataset::from_bytes(&input.dataset).expect("a dataset");
    let mut rest = &input.list[..];
    while let [0x53, 0x45, ty, len, tail @ ..] = rest {
        let (value, next) = tail.split_at(*len as usize);
        dataset.set_raw(*ty, value);
        rest = next;
    }
    let bytes = dataset.to_bytes().expect("a dataset");
    if bytes.len() > MOST { NONE + 10 } else { written(&bytes, out) }
}

/// Not in the Rust: what a set of entries does that is built by its own `set_last`, and then written with marks.
pub fn fold(input: &Input, out: &mut [u8]) -> u64 {
    let mut sets = TlvSet::default();
    let mut rest = &input.list[..];
    while let [0x53, 0x45, ty, len, tail @ ..] = rest {
        let (value, next) = tail.split_at(*len as usize);
        sets.set_last(*ty, value);
        rest = next;
    }
    let mut bytes = Vec::new();
    for entry in sets.entries() {
        bytes.extend([0x53, 0x45]);
        TlvEntry::encode(entry, &mut bytes).expect("an entry");
    }
    written(&bytes, out)
}

pub fn mode(value: &[u8]) -> u64 {
    ModeData::decode(value).map_or(NONE, |mode| sums::mode(&mode))
}

pub fn network_data(value: &[u8]) -> u64 {
    NetworkData::decode(value).map_or(NONE, |data| sums::network_data(&data))
}

/// A payload; and a value, as its one entry, whose decoder the Rust keeps to itself.
pub fn payload(bytes: &[u8]) -> u64 {
    NetDiagData::decode(bytes).map_or(NONE, |data| sums::values(&data) + sums::rows(&data))
}

//! Stored indexes for requests: a dataset's own, and such as are not.

use meshcop::dataset::Dataset;

use super::edits::some_type;
use super::typed::{typed_dataset, value};
use crate::calls::{INDEX_BYTES, INDEX_MARK, count_and_place, slot_of, stored_index};
use crate::framed::{self, PlacedEntry};
use crate::random::Random;
use crate::sizes::MOST_BYTES;

/// The index of a dataset; of one that is cut or over the sizes, that of all entries that can be framed.
pub fn own_index(dataset: &[u8]) -> Vec<u8> {
    stored_index(&framed_entries(dataset))
}

fn framed_entries(dataset: &[u8]) -> Vec<PlacedEntry> {
    let mut entries = Vec::new();
    let mut rest = dataset;
    while let Ok((entry, after)) = framed::first_entry(rest) {
        entries.push(PlacedEntry { start: dataset.len() - rest.len(), ..entry });
        rest = after;
    }
    entries
}

/// The dataset's own index in most cases; else another dataset's, that of the same after an edit, one in which a type's
/// count or place is another, or a bit, or one that is misframed.
pub fn index_beside(random: &mut Random, ty: u8, dataset: &[u8]) -> Vec<u8> {
    match random.below(24) {
        0 => own_index(&typed_dataset(random, ty)),
        1..=2 => own_index(&edited(random, ty, dataset)),
        3..=6 => {
            let ty = some_type_of(random, ty, dataset);
            let slots = other_slots(ty, dataset);
            with_slot(ty, random.pick(&slots), own_index(dataset))
        }
        7 => with_bit_turned(random, own_index(dataset)),
        8 if random.once_in(20) => any_long_index(random, dataset),
        8 => misframed_index(random, dataset),
        _ => own_index(dataset),
    }
}

/// The type that is asked for in most cases, else one that stands there, or any.
fn some_type_of(random: &mut Random, ty: u8, dataset: &[u8]) -> u8 {
    match random.below(6) {
        0 => random.byte(),
        1..=2 => type_there(random, dataset).unwrap_or(ty),
        _ => ty,
    }
}

/// The type of any entry, if there is one before the dataset is cut.
pub fn type_there(random: &mut Random, dataset: &[u8]) -> Option<u8> {
    let entries = framed_entries(dataset);
    entries.get(random.below(entries.len())).map(|entry| entry.ty)
}

/// The dataset with the type set, or another, or without the type, or just written afresh, with the shortest headers.
fn edited(random: &mut Random, ty: u8, dataset: &[u8]) -> Vec<u8> {
    let mut edited = Dataset::from_bytes(dataset).unwrap_or_default();
    match random.below(5) {
        0 => {}
        1..=2 => edited.remove_all(ty),
        3 => edited.set_raw(some_type(random), random.bytes(2)),
        _ => edited.set_raw(ty, value(random, ty)),
    }
    edited.to_bytes().unwrap_or_default()
}

fn with_bit_turned(random: &mut Random, mut index: Vec<u8>) -> Vec<u8> {
    let place = random.below(index.len());
    index[place] ^= 1 << random.below(8);
    index
}

fn misframed_index(random: &mut Random, dataset: &[u8]) -> Vec<u8> {
    let mut misframed = misframed(&own_index(dataset));
    misframed.swap_remove(random.below(misframed.len()))
}

/// Longer than any dataset may be, or about as long.
fn any_long_index(random: &mut Random, dataset: &[u8]) -> Vec<u8> {
    let length = random.pick(&[MOST_BYTES, MOST_BYTES + 1, 20_000]);
    long_index(&own_index(dataset), length)
}

/// An index, and after it zeros up to a length.
pub fn long_index(index: &[u8], length: usize) -> Vec<u8> {
    let mut long = index.to_vec();
    long.resize(length, 0);
    long
}

/// The mark's letters in the other order, one or the other of them off or twice, in lower case, and none.
const OTHER_MARKS: &[[u8; 2]] =
    &[[0x58, 0x49], [0x49, 0x59], [0x48, 0x58], [0x49, 0x49], [0x58, 0x58], [0x69, 0x78], [0, 0]];

/// An index with another mark, without it, shorter, longer, and twice; all but those with another mark are of a wrong length.
pub fn misframed(index: &[u8]) -> Vec<Vec<u8>> {
    let slots = &index[INDEX_MARK.len()..];
    let mut misframed: Vec<Vec<u8>> = OTHER_MARKS.iter().map(|mark| [mark, slots].concat()).collect();
    for length in [0, 1, 2, 3, INDEX_BYTES / 2, INDEX_BYTES - 4, INDEX_BYTES - 2, INDEX_BYTES - 1] {
        misframed.push(index[..length].to_vec());
    }
    for length in [INDEX_BYTES + 1, INDEX_BYTES + 2, INDEX_BYTES + 4] {
        misframed.push(long_index(index, length));
    }
    misframed.push(slots.to_vec());
    misframed.push([&[0], index].concat());
    misframed.push(index.repeat(2));
    misframed
}

/// Another count and place for a type.
pub fn with_slot(ty: u8, [count, place]: [u16; 2], mut index: Vec<u8>) -> Vec<u8> {
    let slot = slot_of(ty);
    index[slot..slot + 2].copy_from_slice(&count.to_be_bytes());
    index[slot + 2..slot + 4].copy_from_slice(&place.to_be_bytes());
    index
}

/// All that could stand in the place of a type's count and place: either off by one, without the other, its bytes in the
/// other order, or all its bits set; and the places of the value, of the type's first entry, of any type's first and last
/// one, and of where the dataset ends.
pub fn other_slots(ty: u8, dataset: &[u8]) -> Vec<[u16; 2]> {
    let entries = framed_entries(dataset);
    let own = own_slot(ty, dataset);
    let [count, place] = own;
    let of_type = || entries.iter().filter(|entry| entry.ty == ty);
    let first = of_type().next().map_or(0, |entry| entry.start as u16);
    let value = of_type().last().map_or(2, |entry| (entry.start + entry.header) as u16);
    let any_last = entries.last().map_or(0, |entry| entry.start as u16);
    let end = dataset.len() as u16;
    let places = [place + 1, place.wrapping_sub(1), first, value, any_last, end, end + 1, 0, place.swap_bytes(), !0];
    let counts = [count + 1, count.wrapping_sub(1), count.swap_bytes(), 0, !0];
    let mut slots: Vec<[u16; 2]> = places.iter().map(|place| [count, *place]).collect();
    slots.extend(counts.map(|count| [count, place]));
    slots.extend([[place, count], [1, any_last], [1, end], [0, 0]]);
    slots.sort();
    slots.dedup();
    slots.retain(|slot| *slot != own);
    slots
}

fn own_slot(ty: u8, dataset: &[u8]) -> [u16; 2] {
    let (count, place) = count_and_place(ty, &own_index(dataset));
    [count as u16, place as u16]
}

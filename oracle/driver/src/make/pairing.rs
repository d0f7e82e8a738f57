//! Requests on child pairing: `pair`.

use super::Maker;
use super::about::some_most_entries;
use super::caps::{with_cap, with_each_edge_cap, with_edge_caps_in_turn};
use super::datasets::{damaged, entry};
use super::diag_values::{CHILD_ADDRESSES, CHILD_TABLE, MAC_ADDRESS, TYPES, fitting, misfit};
use super::framing::words_of;
use super::payloads::{payload, payload_edges, payload_of_entries};
use super::short::{Family, ZERO_OR_ONE_BYTE, string, strings, zero_or_one_byte};
use crate::random::Random;
use crate::sizes::{MOST_BYTES, MOST_ENTRIES, OLDER_ENTRIES};
use crate::words::bytes_word;

/// The parent of most payloads and of most lists.
const PARENT: u16 = 0x2800;

/// Of an RLOC16: it belongs neither to the parent nor to the child ID.
const BIT_9: u16 = 0x0200;

/// The lowest of the six bits that name the parent.
const BIT_10: u16 = 0x0400;

/// A MAC Address of the payload, the last of which counts.
fn mac(rloc16: u16) -> Vec<u8> {
    entry(MAC_ADDRESS, &rloc16.to_be_bytes(), false)
}

/// A row of a child table, all else being 0.
fn row(child_id: u16) -> [u8; 3] {
    [(child_id >> 8) as u8, child_id as u8, 0]
}

fn table(child_ids: &[u16]) -> Vec<u8> {
    let rows: Vec<u8> = child_ids.iter().flat_map(|child_id| row(*child_id)).collect();
    entry(CHILD_TABLE, &rows, false)
}

/// An address list without addresses.
fn list(rloc16: u16) -> Vec<u8> {
    entry(CHILD_ADDRESSES, &rloc16.to_be_bytes(), false)
}

/// Tables, by number, of these child IDs.
fn table_of(ids: &[u8], number: usize) -> Vec<u8> {
    let rows: Vec<u16> = string(ids, 0, number).into_iter().map(u16::from).collect();
    table(&rows)
}

/// Lists, by number, of these RLOC16s.
fn lists_of(rloc16s: &[u16], number: usize) -> Vec<u8> {
    let places: Vec<u8> = (0..rloc16s.len() as u8).collect();
    string(&places, 0, number).into_iter().flat_map(|place| list(rloc16s[usize::from(place)])).collect()
}

/// Child IDs that a pairing tells apart, and all tables and lists of up to three of them.
const IDS: &[u8] = &[1, 2, 3];
const SHAPED: usize = strings(IDS.len(), 0, 3);

/// A table, lists before or after it, and the MAC Address, if any, before, between or after these.
fn shaped(number: usize, mac: Vec<u8>) -> Vec<u8> {
    let table = table_of(IDS, number / SHAPED);
    let lists = lists_of(&[0x2801, 0x2802, 0x2803], number % SHAPED);
    let mut parts = if number % 2 == 0 { vec![table, lists] } else { vec![lists, table] };
    parts.insert(number / SHAPED % 3, mac);
    parts.concat()
}

/// Two children of the payload's parent, with bit 9 as well, and of another parent; and up to three lists of these.
const OF_PARENTS: &[u16] = &[0x2801, 0x2802, 0x2a01, 0x2a02, 0x2c01, 0x2c02];
const MIXED: usize = strings(OF_PARENTS.len(), 0, 3);

/// Up to two rows, and lists of more than one parent.
fn mixed(number: usize) -> Vec<u8> {
    [lists_of(OF_PARENTS, number % MIXED), table_of(&[1, 2], number / MIXED), mac(PARENT)].concat()
}

/// Each parent's MAC Address against each parent's list.
fn two_parents(number: usize) -> String {
    let (own, other) = (number as u16 / 64, number as u16 % 64);
    single(own * BIT_10, 1, (other * BIT_10) | 1)
}

/// Up to three lists of two parents, for each of seven bits and two orders.
const OF_TWO: usize = strings(2, 0, 3);
const TWO_MACS: usize = 7 * 2 * OF_TWO;

/// Two MAC Addresses, in both orders, that differ in bit 9 or in one of the parent's, and lists of both between them.
fn two_macs(number: usize) -> Vec<u8> {
    let other = PARENT ^ (BIT_9 << (number / OF_TWO / 2));
    let lists = lists_of(&[PARENT | 1, other | 1], number % OF_TWO);
    let [first, last] = if number / OF_TWO % 2 == 0 { [PARENT, other] } else { [other, PARENT] };
    [mac(first), lists, mac(last), table(&[1])].concat()
}

/// A MAC Address, a table of one row, and one list.
fn single(mac_address: u16, child_id: u16, rloc16: u16) -> String {
    bytes_word(&[mac(mac_address), table(&[child_id]), list(rloc16)].concat())
}

pub const PAIR: Maker = Maker {
    call: "pair",
    share: 26,
    random: |random| {
        let words = bytes_word(&random_payload(random));
        with_cap(random, "pair", &words)
    },
    edges: pair_edges,
    short: &[
        Family { size: ZERO_OR_ONE_BYTE, words: |number| format!("{} 0", bytes_word(&zero_or_one_byte(number))) },
        Family { size: SHAPED * SHAPED, words: |number| format!("{} 3", bytes_word(&shaped(number, mac(PARENT)))) },
        // The same without a MAC Address.
        Family { size: SHAPED * SHAPED, words: |number| format!("{} 3", bytes_word(&shaped(number, vec![]))) },
        Family { size: strings(2, 0, 2) * MIXED, words: |number| format!("{} 2", bytes_word(&mixed(number))) },
        Family { size: 64 * 64, words: |number| format!("{} 1", two_parents(number)) },
        Family { size: TWO_MACS, words: |number| format!("{} 1", bytes_word(&two_macs(number))) },
        // All child IDs against one list, and one row against all bits of an RLOC16 and of a MAC Address.
        Family { size: 512, words: |id| format!("{} 1", single(PARENT, id as u16, 0x29ff)) },
        Family { size: 16, words: |bit| format!("{} 1", single(PARENT, 257, 0x2901 ^ (1 << bit))) },
        Family { size: 16, words: |bit| format!("{} 1", single(0x2901 ^ (1 << bit), 257, 0x2901)) },
    ],
};

fn random_payload(random: &mut Random) -> Vec<u8> {
    match random.below(20) {
        0 => payload(random),
        1 => crowded_payload(random),
        _ => {
            let paired = paired_payload(random);
            if random.once_in(3) { damaged(random, paired) } else { paired }
        }
    }
}

/// About as many entries as a payload may have, half of them lists.
fn crowded_payload(random: &mut Random) -> Vec<u8> {
    let parent = random_parent(random, PARENT);
    let ids = random.pick(&[64, 64, 512]);
    let most = some_most_entries(random);
    let half = random.between(most / 2 - 14, most / 2);
    let mut entries = random_lists(random, half, ids, parent);
    entries.extend([random_table(random, 40, ids), random_mac(random, parent), payload_of_entries(random, half)]);
    turned(random, entries)
}

/// A table, in some cases two, lists of few children, and a MAC Address, in some cases none or two, among others.
fn paired_payload(random: &mut Random) -> Vec<u8> {
    let parent = random_parent(random, PARENT);
    let ids = random.pick(&[2, 4, 8, 8, 8, 16]);
    let mut entries = vec![random_table(random, 7, ids)];
    if random.once_in(6) {
        entries.push(random_table(random, 4, ids));
    }
    let lists = random.below(13);
    entries.extend(random_lists(random, lists, ids, parent));
    for _ in 0..random.below(3) {
        entries.push(other_entry(random));
    }
    for _ in 0..random.pick(&[0, 1, 1, 1, 1, 2]) {
        let place = random.below(entries.len() + 1);
        entries.insert(place, random_mac(random, parent));
    }
    turned(random, entries)
}

/// The entries from any of them on, then those before it.
fn turned(random: &mut Random, mut entries: Vec<Vec<u8>>) -> Vec<u8> {
    let turn = random.below(entries.len());
    entries.rotate_left(turn);
    entries.concat()
}

fn random_table(random: &mut Random, most_rows: usize, ids: usize) -> Vec<u8> {
    let rows = random.below(most_rows + 1);
    let child_ids = child_ids(random, rows, ids);
    let some_row = |child_id: u16| {
        let [high, low] = child_id.to_be_bytes();
        [random.byte() & 0xfe | high, low, random.byte()]
    };
    let value: Vec<u8> = child_ids.into_iter().flat_map(some_row).collect();
    entry(CHILD_TABLE, &value, random.once_in(8))
}

fn random_lists(random: &mut Random, lists: usize, ids: usize, parent: u16) -> Vec<Vec<u8>> {
    let child_ids = child_ids(random, lists, ids);
    child_ids.into_iter().map(|child_id| random_list(random, child_id, parent)).collect()
}

/// So many child IDs out of a number of them: in most cases one after the other, else any.
fn child_ids(random: &mut Random, count: usize, ids: usize) -> Vec<u16> {
    let first = random.below(ids);
    let in_order = !random.once_in(4);
    let number = |place| if in_order { (first + place) % ids } else { random.below(ids) };
    (0..count).map(number).map(|number| child_id(number as u16, ids)).collect()
}

/// One of so many, by number, of which some differ in the ninth bit alone.
fn child_id(number: u16, ids: usize) -> u16 {
    if ids <= 256 { number / 2 + 256 * (number % 2) } else { number }
}

fn random_list(random: &mut Random, child_id: u16, parent: u16) -> Vec<u8> {
    let rloc16 = random_parent(random, parent) | random.pick(&[0, 0, 0, BIT_9]) | child_id;
    let addresses = random.pick(&[0, 0, 1, 2]);
    let value = [&rloc16.to_be_bytes()[..], &random.bytes(16 * addresses)].concat();
    entry(CHILD_ADDRESSES, &value, random.once_in(10))
}

/// In half of the cases with bits that do not name the parent.
fn random_mac(random: &mut Random, parent: u16) -> Vec<u8> {
    let low_bits = if random.once_in(2) { random.below(BIT_10.into()) as u16 } else { 0 };
    let rloc16 = random_parent(random, parent) | low_bits;
    entry(MAC_ADDRESS, &rloc16.to_be_bytes(), random.once_in(10))
}

/// This parent in most cases, else one that differs from it in one bit, or another.
fn random_parent(random: &mut Random, parent: u16) -> u16 {
    match random.below(12) {
        0 => random.pick(&[0x0000, 0x0400, 0xfc00]),
        1 => parent ^ (BIT_10 << random.below(6)),
        _ => parent,
    }
}

/// Of any type but a table's and a list's, now and then a MAC Address of any parent, and now and then at fault.
fn other_entry(random: &mut Random) -> Vec<u8> {
    let ty = match random.pick(TYPES) {
        CHILD_TABLE | CHILD_ADDRESSES => random.pick(&[7, 10, 31, 200]),
        other => other,
    };
    let value = if random.once_in(12) { misfit(random, ty) } else { fitting(random, ty) };
    entry(ty, &value, false)
}

fn pair_edges(random: &mut Random) -> Vec<String> {
    let mut edges = with_edge_caps_in_turn("pair", &words_of(&payload_edges(random)));
    for words in words_of(&[own_mac_edges(), other_mac_edges()].concat()) {
        edges.extend(with_each_edge_cap("pair", &words));
    }
    edges
}

/// So many child IDs, each once as far as there are so many.
fn first_ids(count: usize) -> Vec<u16> {
    (0..count as u16).map(|number| number % 512).collect()
}

/// A list for each of so many.
fn first_lists(count: usize) -> Vec<u8> {
    first_ids(count).into_iter().flat_map(|id| list(PARENT | id)).collect()
}

/// Before and after a MAC Address: as many rows and entries as there may be beside it, one entry more, as many as an
/// older handset did not take, two tables, lists of two parents, and another MAC Address.
fn own_mac_edges() -> Vec<Vec<u8>> {
    let own = mac(PARENT);
    let most_rows = (MOST_BYTES - own.len() - 4) / 3;
    let others = [
        table(&first_ids(most_rows)),
        [table(&first_ids(84)), first_lists(MOST_ENTRIES - 2)].concat(),
        [first_lists(MOST_ENTRIES - 2), table(&first_ids(512))].concat(),
        [first_lists(MOST_ENTRIES - 1), table(&[1])].concat(),
        [first_lists(OLDER_ENTRIES - 1), table(&[1])].concat(),
        [table(&[]), first_lists(3)].concat(),
        [table(&[1]), table(&[]), list(0x2801)].concat(),
        [table(&[1, 2]), list(0x2801), table(&[2, 1, 2])].concat(),
        [list(0x2802), list(0x2801), table(&[1, 2])].concat(),
        [table(&[1]), list(0x2801), list(0x2c01)].concat(),
        [list(0x2c01), list(0x2801), table(&[1])].concat(),
        [table(&[1]), list(0x2c01), list(0x2c01), mac(0x2c00)].concat(),
    ];
    others.iter().flat_map(|other| [[&own[..], other].concat(), [&other[..], &own].concat()]).collect()
}

/// No MAC Address, one of all bits, one under a long header, and one too short after one that fits.
fn other_mac_edges() -> Vec<Vec<u8>> {
    vec![
        [table(&first_ids(512)), first_lists(MOST_ENTRIES - 1)].concat(),
        [list(0x2802), list(0x2801), table(&[1, 2, 3])].concat(),
        [table(&[511]), list(0xffff), mac(0xffff)].concat(),
        [entry(MAC_ADDRESS, &[0x2a, 0x01], true), table(&[1]), list(0x2801)].concat(),
        [mac(PARENT), table(&[1]), list(0x2801), entry(MAC_ADDRESS, &[0x28], false)].concat(),
    ]
}

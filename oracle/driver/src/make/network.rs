//! Network Data values for requests: whole ones, such with a fault inside, and those at each boundary.

use super::about::byte_edges;
use crate::random::Random;
use crate::rules::network_tlvs::{BORDER_ROUTER, CONTEXT, HAS_ROUTE, PREFIX};
use crate::sizes::NETWORK_DATA;

const HAS_ROUTE_ROW: usize = 3;
const BORDER_ROUTER_ROW: usize = 4;

/// As many rows as the length byte of a prefix leaves room for.
const MOST_HAS_ROUTES_INSIDE: usize = 83;
const MOST_BORDER_ROUTERS_INSIDE: usize = 62;

/// A TLV; its last bit of type says whether it is stable.
pub fn item(ty: u8, value: &[u8]) -> Vec<u8> {
    let mut item = vec![ty, value.len() as u8];
    item.extend(value);
    item
}

/// A prefix of no bits.
pub fn bare_prefix(inner: &[u8]) -> Vec<u8> {
    item(PREFIX, &[&[0, 0], inner].concat())
}

fn rows(random: &mut Random, ty: u8, size: usize, count: usize) -> Vec<u8> {
    let value = random.bytes(size * count);
    item(ty | random.below(2) as u8, &value)
}

fn has_routes(random: &mut Random, count: usize) -> Vec<u8> {
    rows(random, HAS_ROUTE, HAS_ROUTE_ROW, count)
}

fn border_routers(random: &mut Random, count: usize) -> Vec<u8> {
    rows(random, BORDER_ROUTER, BORDER_ROUTER_ROW, count)
}

/// A random value without a fault, in most cases few prefixes, in some about as many prefixes or rows as may be.
pub fn network_data(random: &mut Random) -> Vec<u8> {
    match random.below(60) {
        0..=1 => many_prefixes(random),
        2..=4 => many_rows(random),
        _ => {
            let items = random.below(5);
            (0..items).flat_map(|_| top_item(random)).collect()
        }
    }
}

/// A value with a fault inside, or over the sizes.
pub fn faulty_network_data(random: &mut Random) -> Vec<u8> {
    if random.once_in(6) {
        return if random.once_in(2) { many_prefixes(random) } else { many_rows(random) };
    }
    let before = if random.once_in(20) { many_rows(random) } else { network_data(random) };
    let fault = faulty_item(random);
    let after = network_data(random);
    [before, fault, after].concat()
}

/// A prefix, or a TLV of another type, which is skipped.
fn top_item(random: &mut Random) -> Vec<u8> {
    if random.once_in(5) {
        let ty = random.pick(&[0, 1, 4, 5, 6, 8, 0x0a, 0xfe, 0xff]);
        let length = random.below(6);
        return item(ty, &random.bytes(length));
    }
    let inner = inner_items(random);
    prefix(random, &inner)
}

fn prefix(random: &mut Random, inner: &[u8]) -> Vec<u8> {
    let bits = match random.below(8) {
        0 => 0,
        1 => random.byte(),
        2 => random.pick(&[1, 7, 8, 9, 127, 128, 129]),
        3 => random.below(20) as u8,
        _ => 64,
    };
    let value = [&[random.byte(), bits], &random.bytes(usize::from(bits).div_ceil(8))[..], inner].concat();
    item(PREFIX | random.below(2) as u8, &value)
}

fn inner_items(random: &mut Random) -> Vec<u8> {
    let items = random.below(5);
    (0..items).flat_map(|_| inner_item(random)).collect()
}

fn inner_item(random: &mut Random) -> Vec<u8> {
    let count = random.below(4);
    match random.below(10) {
        0..=2 => has_routes(random, count),
        3..=5 => border_routers(random, count),
        6..=8 => item(CONTEXT | random.below(2) as u8, &random.bytes(2)),
        _ => item(random.pick(&[2, 3, 8, 9, 0x80, 0xff]), &random.bytes(count)),
    }
}

/// About 64 prefixes, of which most are bare.
pub fn many_prefixes(random: &mut Random) -> Vec<u8> {
    let count = random.between(62, 67);
    let one = |_| if random.once_in(10) { prefix(random, &[]) } else { bare_prefix(&[]) };
    (0..count).flat_map(one).collect()
}

/// About 96 rows of one kind, or of both, over several prefixes.
pub fn many_rows(random: &mut Random) -> Vec<u8> {
    let (routes, borders) = match random.below(3) {
        0 => (random.between(94, 98), random.below(3)),
        1 => (random.below(3), random.between(94, 98)),
        _ => (random.between(95, 97), random.between(95, 97)),
    };
    [spread_rows(random, routes, has_routes), spread_rows(random, borders, border_routers)].concat()
}

/// So many rows over prefixes of one to five row lists each.
fn spread_rows(random: &mut Random, count: usize, rows: fn(&mut Random, usize) -> Vec<u8>) -> Vec<u8> {
    let mut value = Vec::new();
    let mut left = count;
    while left > 0 {
        let mut inner = Vec::new();
        for _ in 0..random.between(1, 5) {
            let taken = random.between(0, left.min(11));
            inner.extend(rows(random, taken));
            left -= taken;
        }
        value.extend(bare_prefix(&inner));
    }
    value
}

/// A TLV with a fault: of a length, inside a prefix; of a prefix that is cut; or of a TLV that is cut, here or inside.
fn faulty_item(random: &mut Random) -> Vec<u8> {
    let count = random.below(4);
    let inner = match random.below(8) {
        0 => item(HAS_ROUTE, &random.bytes(HAS_ROUTE_ROW * count + 1 + count % 2)),
        1 => item(BORDER_ROUTER, &random.bytes(BORDER_ROUTER_ROW * count + 1 + count % 3)),
        2 => item(CONTEXT, &random.bytes([0, 1, 3, 4][count])),
        3 => vec![random.byte()],
        4 => vec![random.byte(), random.between(1, 255) as u8],
        5 => return item(PREFIX, &[0, 0][..count / 2]),
        6 => return item(PREFIX, &[0, random.between(25, 255) as u8, 0, 0, 0]),
        _ => return vec![random.byte(), random.between(count + 1, 255) as u8, 0, 0],
    };
    let before = if random.once_in(2) { inner_items(random) } else { Vec::new() };
    bare_prefix(&[before, inner].concat())
}

/// Values at each boundary of a prefix, of what is inside it, and of the sizes.
pub fn network_data_edges(random: &mut Random) -> Vec<Vec<u8>> {
    let mut edges = prefix_edges(random);
    edges.extend(inner_edges(random));
    edges.extend(prefix_count_edges());
    edges.extend(row_count_edges(random, has_routes, MOST_HAS_ROUTES_INSIDE, NETWORK_DATA.has_routes));
    edges.extend(row_count_edges(random, border_routers, MOST_BORDER_ROUTERS_INSIDE, NETWORK_DATA.border_routers));
    edges.extend(length_byte_edges(random));
    edges
}

/// Bit lengths where a byte more is wanted, each with its bytes and with one short of them.
fn prefix_edges(random: &mut Random) -> Vec<Vec<u8>> {
    let mut edges = vec![vec![], vec![PREFIX], vec![PREFIX, 0], vec![PREFIX, 1, 0], vec![3, 2, 0]];
    for bits in (0..=9).chain([15, 16, 17, 63, 64, 65, 127, 128, 129, 247, 248, 249, 254, 255]) {
        let bytes = random.bytes(usize::from(bits as u8).div_ceil(8));
        let whole = [&[7, bits as u8], &bytes[..]].concat();
        edges.push(item(PREFIX, &whole[..whole.len() - 1]));
        edges.push(item(PREFIX, &[&whole[..], &item(CONTEXT, &[0x1f, bits as u8])].concat()));
        edges.push([item(0xff, &bytes), item(PREFIX + 1, &whole)].concat());
    }
    edges
}

/// Row lists of each short length, contexts of each, repeated ones, and every cut of a prefix and of what is inside.
fn inner_edges(random: &mut Random) -> Vec<Vec<u8>> {
    let mut edges = Vec::new();
    for ty in [HAS_ROUTE, HAS_ROUTE + 1, 2, BORDER_ROUTER, BORDER_ROUTER + 1, CONTEXT, CONTEXT + 1, 8, 0xff] {
        for length in 0..=9 {
            edges.push(bare_prefix(&item(ty, &random.bytes(length))));
        }
    }
    let routes = [has_routes(random, 1), has_routes(random, 2)].concat();
    let contexts = [item(CONTEXT, &[0x11, 64]), item(CONTEXT, &[0x0e, 0])].concat();
    let inner = [routes, border_routers(random, 1), contexts, border_routers(random, 2)].concat();
    for length in 0..inner.len() {
        edges.push(bare_prefix(&inner[..length]));
    }
    let whole = [bare_prefix(&inner), item(0, &[1, 2]), prefix(random, &inner)].concat();
    edges.extend((0..=whole.len()).map(|length| whole[..length].to_vec()));
    // A fault of a length comes before the cut of what follows it, inside and outside; and the cut first, where it is first.
    let wrong = item(HAS_ROUTE, &[0]);
    edges.push([bare_prefix(&wrong), vec![0]].concat());
    edges.push(bare_prefix(&[&wrong[..], &[0]].concat()));
    edges.push([bare_prefix(&[9]), bare_prefix(&wrong)].concat());
    edges.push([vec![BORDER_ROUTER, 255], bare_prefix(&wrong)].concat());
    edges
}

/// Prefixes at their number, what follows the last being whole, empty, cut, or of another type.
fn prefix_count_edges() -> Vec<Vec<u8>> {
    let mut edges = Vec::new();
    for count in NETWORK_DATA.prefixes - 1..=NETWORK_DATA.prefixes + 1 {
        let prefixes = bare_prefix(&[]).repeat(count);
        let wrong = bare_prefix(&item(HAS_ROUTE, &[0]));
        for last in [vec![], vec![PREFIX, 0], vec![PREFIX, 1], vec![PREFIX], vec![8, 0], vec![8], wrong] {
            edges.push([&prefixes[..], &last].concat());
        }
        edges.push([item(0, &[]).repeat(100), prefixes].concat());
    }
    edges
}

/// Rows at their number, in one list or many, the last list being whole, too long or too short by a byte, or empty.
fn row_count_edges(
    random: &mut Random,
    rows: fn(&mut Random, usize) -> Vec<u8>,
    most_inside: usize,
    most: usize,
) -> Vec<Vec<u8>> {
    let mut edges = Vec::new();
    for count in [1, most_inside - 1, most_inside] {
        edges.push(bare_prefix(&rows(random, count)));
    }
    for count in most - 1..=most + 1 {
        let first = bare_prefix(&rows(random, most_inside));
        let last = rows(random, count - most_inside);
        let (longer, shorter) = (with_length(&last, 1), with_length(&last, -1));
        for last in [&last[..], &longer, &shorter, &[&last[..], &rows(random, 0)].concat(), &[&last[..], &[0]].concat()]
        {
            edges.push([&first[..], &bare_prefix(last)].concat());
        }
        let single: Vec<Vec<u8>> = (0..count).map(|_| rows(random, 1)).collect();
        edges.push(single.chunks(20).flat_map(|part| bare_prefix(&part.concat())).collect());
        edges.push(spread_rows(random, count, rows));
    }
    edges
}

/// The TLV with a byte more or less in its value.
fn with_length(tlv: &[u8], more: i8) -> Vec<u8> {
    let mut value = tlv[2..].to_vec();
    value.resize(value.len().saturating_add_signed(more.into()), 0x55);
    item(tlv[0], &value)
}

/// 255 is a length like any other.
fn length_byte_edges(random: &mut Random) -> Vec<Vec<u8>> {
    let mut edges = Vec::new();
    for ty in [0, PREFIX, 0xff] {
        for length in [253, 254, 255] {
            let whole = item(ty, &[&[0, 0, 8, length as u8 - 4], &random.bytes(length - 4)[..]].concat());
            edges.push(whole[..whole.len() - 1].to_vec());
            edges.push([&whole[..], &[PREFIX, 2, 0, 0]].concat());
            edges.push(whole);
        }
    }
    edges
}

/// A value of exactly so many bytes without a fault.
pub fn network_data_of_size(random: &mut Random, bytes: usize) -> Vec<u8> {
    let mut value = Vec::new();
    while value.len() < bytes {
        let left = bytes - value.len();
        // At least two bytes are left over, or none.
        let size = if left <= 257 { left } else { random.between(2, 257).min(left - 2) };
        value.extend(item(8, &random.bytes(size.saturating_sub(2))));
    }
    value.truncate(bytes);
    value
}

/// Bare values at the size.
pub fn long_network_data(random: &mut Random) -> Vec<Vec<u8>> {
    let mut edges = Vec::new();
    for bytes in byte_edges() {
        edges.push(network_data_of_size(random, bytes));
        edges.push([network_data_of_size(random, bytes - 1), vec![0]].concat());
        edges.push([bare_prefix(&item(HAS_ROUTE, &[0])), network_data_of_size(random, bytes - 7)].concat());
    }
    edges
}

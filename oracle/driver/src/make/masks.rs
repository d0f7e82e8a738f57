//! Channel masks for requests: whole ones, and such whose last item is cut.

use super::about::entry_edges;
use crate::random::Random;

/// The most bytes of one item: page, length, and what a length byte can say.
const LARGEST_ITEM: usize = 2 + 255;

/// Pages and lengths where the reading of items forks, in as few bytes as show it.
pub const ITEM_FORKS: &[u8] = &[0x00, 0x01, 0x02, 0x03, 0xff];

fn item(page: u8, bytes: &[u8]) -> Vec<u8> {
    let mut item = vec![page, bytes.len() as u8];
    item.extend(bytes);
    item
}

/// A random mask: most have few short items, some an item of about 255 bytes, some many empty ones.
pub fn mask(random: &mut Random) -> Vec<u8> {
    if random.once_in(40) {
        let length = random.between(250, 255);
        let bytes = random.bytes(length);
        return [item(random.byte(), &bytes), short_items(random, 2)].concat();
    }
    let items = if random.once_in(40) { random.between(100, 140) } else { random.below(4) };
    short_items(random, items)
}

fn short_items(random: &mut Random, items: usize) -> Vec<u8> {
    let short_item = |_| {
        let page = if random.once_in(2) { 0 } else { random.byte() };
        let length = if random.once_in(3) { 4 } else { random.below(6) };
        item(page, &random.bytes(length))
    };
    (0..items).flat_map(short_item).collect()
}

/// A mask of exactly so many bytes; one byte alone is none.
pub fn mask_of_size(random: &mut Random, bytes: usize) -> Vec<u8> {
    let mut mask = Vec::new();
    while mask.len() < bytes {
        let rest = bytes - mask.len();
        // At least two bytes are left over, or none.
        let size = if rest <= LARGEST_ITEM { rest } else { random.between(2, LARGEST_ITEM).min(rest - 2) };
        let value = random.bytes(size.saturating_sub(2));
        mask.extend(item(random.byte(), &value));
    }
    mask.truncate(bytes);
    mask
}

/// A mask with its last item cut: bytes are missing at its end, or a length says more than there is.
pub fn cut_mask(random: &mut Random) -> Vec<u8> {
    let before = mask(random);
    let length = random.between(1, 6);
    let bytes = random.bytes(length);
    let last = match random.below(4) {
        0 => vec![random.byte()],
        1 => vec![random.byte(), random.between(1, 255) as u8],
        2 => [&[random.byte(), random.between(length + 1, 255) as u8], &bytes[..]].concat(),
        _ => {
            let mut last = item(random.byte(), &bytes);
            last.truncate(random.between(1, 1 + length));
            last
        }
    };
    [before, last].concat()
}

/// Every cut of two items, items at the ends of what a length byte says, and more items than a dataset has entries.
pub fn mask_edges(random: &mut Random) -> Vec<Vec<u8>> {
    let two = [item(0, &random.bytes(4)), item(1, &random.bytes(2))].concat();
    let mut edges: Vec<Vec<u8>> = (0..=two.len()).map(|length| two[..length].to_vec()).collect();
    for length in [0, 1, 254, 255] {
        let whole = item(random.byte(), &random.bytes(length));
        edges.push(whole[..whole.len() - 1].to_vec());
        edges.push([&whole[..], &whole].concat());
        edges.push([&whole[..], &[0]].concat());
        edges.push(whole);
    }
    for items in entry_edges() {
        edges.push(vec![0; 2 * items]);
        edges.push(vec![0; 2 * items + 1]);
    }
    edges
}

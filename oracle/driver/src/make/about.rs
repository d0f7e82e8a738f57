//! Numbers about the sizes, for requests; and about those of a handset not yet updated, which are numbers like any other now.

use crate::random::Random;
use crate::sizes::{MOST_BYTES, MOST_ENTRIES, MOST_HEX_DIGITS, OLDER_BYTES, OLDER_ENTRIES, OLDER_HEX_DIGITS};

/// Of the requests about the sizes one in so many is about the older ones.
const OLDER_ONCE_IN: usize = 4;

/// The most bytes, or the older most.
pub fn some_most_bytes(random: &mut Random) -> usize {
    if random.once_in(OLDER_ONCE_IN) { OLDER_BYTES } else { MOST_BYTES }
}

/// The most entries or operations, or the older most.
pub fn some_most_entries(random: &mut Random) -> usize {
    if random.once_in(OLDER_ONCE_IN) { OLDER_ENTRIES } else { MOST_ENTRIES }
}

/// Numbers of bytes at the edge.
pub fn byte_edges() -> impl Iterator<Item = usize> {
    (MOST_BYTES - 1..=MOST_BYTES + 1).chain([OLDER_BYTES, OLDER_BYTES + 1])
}

/// Numbers of entries or operations at the edge; those over the most by two have some after the one that is told.
pub fn entry_edges() -> impl Iterator<Item = usize> {
    (MOST_ENTRIES - 1..=MOST_ENTRIES + 2).chain([OLDER_ENTRIES, OLDER_ENTRIES + 1])
}

/// Numbers of entries or operations of which there is one more, or two, in what comes out.
pub fn entries_before_edges() -> impl Iterator<Item = usize> {
    (MOST_ENTRIES - 2..=MOST_ENTRIES).chain([OLDER_ENTRIES])
}

/// Numbers of hex digits at the edge, odd and even.
pub fn digit_edges() -> impl Iterator<Item = usize> {
    (MOST_HEX_DIGITS - 2..=MOST_HEX_DIGITS + 2).chain([OLDER_HEX_DIGITS, OLDER_HEX_DIGITS + 2])
}

/// Entries and bytes at once: as many of both as may be, an entry more, and more of both than an older handset takes.
pub const FULLEST: [(usize, usize); 3] =
    [(MOST_ENTRIES, MOST_BYTES), (MOST_ENTRIES + 1, MOST_BYTES), (OLDER_ENTRIES + 1, OLDER_BYTES + 1)];

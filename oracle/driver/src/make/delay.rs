//! Requests on the working delay and the due second: `wdelay`, `due`, `wdelay30`, `due30`.

use meshcop::dataset::TLV_DELAY_TIMER;

use super::Maker;
use super::datasets::entry;
use super::queries::{query, query_edges};
use super::short::{Family, string, strings};
use super::typed::typed_dataset;
use crate::random::Random;
use crate::words::bytes_word;

/// The maker for the working delay, whatever it is without a delay timer.
pub const fn wdelay(call: &'static str) -> Maker {
    query::<TLV_DELAY_TIMER>(call)
}

/// About the ends of what "now" may be, and of the numbers that hold it.
const NOWS: &[u64] = &[
    0,
    1,
    0xffff_ffff,
    0x1_0000_0000,
    0xffff_ffff_fffe,
    0xffff_ffff_ffff,
    0x1_0000_0000_0000,
    0x1_0000_0000_0001,
    u64::MAX - 4_294_968,
    u64::MAX,
];

/// Delays about whole seconds, about those that stand for an absent one, and at the ends.
const DELAYS: &[u32] = &[
    0,
    1,
    999,
    1_000,
    1_001,
    1_999,
    2_000,
    2_001,
    29_000,
    29_001,
    29_999,
    30_000,
    30_001,
    299_000,
    299_001,
    299_999,
    300_000,
    300_001,
    u32::MAX - 295,
    u32::MAX,
];

/// The maker for the due second, by either working delay.
pub const fn due(call: &'static str) -> Maker {
    Maker { call, share: 10, random: random_due, edges: due_edges, short: DUE_SHORT }
}

const DUE_SHORT: &[Family] = &[
    Family {
        size: NOWS.len() * DELAYS.len(),
        words: |number| {
            let delay = DELAYS[number % DELAYS.len()].to_be_bytes();
            due_words(&entry(TLV_DELAY_TIMER, &delay, false), NOWS[number / DELAYS.len()])
        },
    },
    Family {
        size: NOWS.len() * strings(3, 0, 2),
        words: |number| {
            let dataset = string(&[0x00, 0x34, 0x04], 0, number / NOWS.len());
            due_words(&dataset, NOWS[number % NOWS.len()])
        },
    },
    Family { size: 64, words: |bit| due_words(&[], 1 << bit) },
];

fn due_words(dataset: &[u8], now: u64) -> String {
    format!("{} {now}", bytes_word(dataset))
}

fn random_due(random: &mut Random) -> String {
    let dataset = typed_dataset(random, TLV_DELAY_TIMER);
    due_words(&dataset, random_now(random))
}

fn due_edges(random: &mut Random) -> Vec<String> {
    let datasets = query_edges(random, TLV_DELAY_TIMER);
    let with_now = |(number, dataset): (usize, &Vec<u8>)| due_words(dataset, NOWS[number % NOWS.len()]);
    datasets.iter().enumerate().map(with_now).collect()
}

fn random_now(random: &mut Random) -> u64 {
    if random.once_in(3) { random.pick(NOWS) } else { random.next() >> random.between(8, 63) }
}

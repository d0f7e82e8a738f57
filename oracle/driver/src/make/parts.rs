//! Requests on values made from their parts and taken apart: `maskitem`, `ts.build`, `ts.parts`, `flags.get`,
//! `flags.set`, `flags.has`, `channel.bytes`, `policy.bytes`.

use super::Maker;
use super::caps::{with_cap, with_each_edge_cap};
use super::datasets::HEADER_EDGES;
use super::short::{Family, TWO_BYTES, lone_bit, lone_bits};
use crate::calls::VERSIONS;
use crate::random::Random;
use crate::words::bytes_word;

pub const MASKITEM: Maker = Maker {
    call: "maskitem",
    share: 6,
    random: |random| {
        let length = if random.once_in(3) { random.between(252, 258) } else { random.below(20) };
        let words = format!("{} {}", random.byte(), bytes_word(&random.bytes(length)));
        with_cap(random, "maskitem", &words)
    },
    edges: maskitem_edges,
    short: &[Family { size: 256, words: |page| format!("{page} {:02x} {}", 255 - page, 2 + page % 3) }],
};

fn maskitem_edges(random: &mut Random) -> Vec<String> {
    let mut edges = Vec::new();
    for length in (0..=4).chain(HEADER_EDGES).chain([511, 512, 65_536]) {
        let words = format!("{} {}", random.byte(), bytes_word(&random.bytes(length)));
        edges.extend(with_each_edge_cap("maskitem", &words));
    }
    edges.push("256 00 9".to_string());
    edges
}

const SECONDS: &[u64] = &[
    0,
    1,
    0xffff,
    0x1_0000,
    0xffff_ffff,
    0x1_0000_0000,
    0x7fff_ffff_ffff,
    0xffff_ffff_fffe,
    0xffff_ffff_ffff,
    0x1_0000_0000_0000,
    0x1_0000_0000_0001,
    0x8000_0000_0000_0000,
    u64::MAX - 1,
    u64::MAX,
];
const TICKS: &[u16] = &[0, 1, 2, 3, 32_766, 32_767, 32_768, 32_769, 65_534, 65_535];

pub const TS_BUILD: Maker = Maker {
    call: "ts.build",
    share: 3,
    random: |random| {
        let seconds = if random.once_in(4) { random.pick(SECONDS) } else { random.next() >> random.below(64) };
        let ticks = if random.once_in(4) { random.pick(TICKS) } else { random.next() as u16 };
        format!("{seconds} {ticks} {}", random.below(2))
    },
    edges: |_| {
        let odd = ["0 65536 0", "0 0 2", "0 0 -", "18446744073709551616 0 0", "1 00065535 001", "1 2"];
        odd.map(str::to_string).to_vec()
    },
    short: &[
        Family {
            size: SECONDS.len() * TICKS.len() * 2,
            words: |number| {
                let ticks = TICKS[number / 2 % TICKS.len()];
                format!("{} {ticks} {}", SECONDS[number / 2 / TICKS.len()], number % 2)
            },
        },
        Family { size: 64, words: |bit| format!("{} 0 0", 1u64 << bit) },
        Family { size: 16, words: |bit| format!("0 {} 0", 1u16 << bit) },
    ],
};

pub const TS_PARTS: Maker = Maker {
    call: "ts.parts",
    share: 2,
    random: |random| {
        let length = if random.once_in(20) { random.below(18) } else { 8 };
        bytes_word(&random.bytes(length))
    },
    edges: |random| (0..=17).map(|length| bytes_word(&random.bytes(length))).collect(),
    short: &[Family { size: lone_bits(8), words: |number| bytes_word(&lone_bit(8, number)) }],
};

/// The flag that means `V1Or2`.
const LEGACY: usize = 0x0004;
/// Of the bits that play no part in versions none, all, and some.
const OTHER_FLAGS: &[usize] = &[0x0000, 0x1ffb, 0x1002, 0x0809];

/// Flags with each threshold, with and without the legacy flag, among several others.
pub const FLAGS: usize = 8 * 2 * OTHER_FLAGS.len();

pub fn flags(number: usize) -> usize {
    let (threshold, legacy) = (number % 8, number / 8 % 2);
    (threshold << 13) + legacy * LEGACY + OTHER_FLAGS[number / 16]
}

pub const FLAGS_GET: Maker = Maker {
    call: "flags.get",
    share: 1,
    random: |random| random.below(65_536).to_string(),
    edges: |_| vec!["65536".to_string(), "00065535".to_string()],
    short: &[
        Family { size: FLAGS, words: |number| flags(number).to_string() },
        Family { size: TWO_BYTES, words: |number| number.to_string() },
    ],
};

/// Words that look much like a version's, and are none.
pub const NO_VERSIONS: &[&str] = &["V0", "V1", "V2", "V11", "v3", "3", "V03", "V1or2", "V1Or", "V1Or22", "V", "-", ""];

pub const FLAGS_SET: Maker = Maker {
    call: "flags.set",
    share: 3,
    random: |random| format!("{} {}", random.below(65_536), random.pick(VERSIONS).0),
    edges: |_| {
        let with_flags = |word: &&str| format!("57348 {word}");
        NO_VERSIONS.iter().map(with_flags).chain(["65536 V3".to_string()]).collect()
    },
    short: &[Family {
        size: FLAGS * VERSIONS.len(),
        words: |number| format!("{} {}", flags(number % FLAGS), VERSIONS[number / FLAGS].0),
    }],
};

/// No bit, each bit by itself, and all bits.
const FEW_BITS: usize = 18;

fn few_bits(number: usize) -> u16 {
    match number {
        0 => 0,
        17 => u16::MAX,
        _ => 1 << (number - 1),
    }
}

pub const FLAGS_HAS: Maker = Maker {
    call: "flags.has",
    share: 2,
    random: |random| {
        let flags = random.next() as u16;
        let mask = random.next() as u16;
        format!("{flags} {}", if random.once_in(2) { flags & mask } else { mask })
    },
    edges: |_| ["65536 0", "0 65536", "65535 65535"].map(str::to_string).to_vec(),
    short: &[Family {
        size: FEW_BITS * FEW_BITS,
        words: |number| format!("{} {}", few_bits(number / FEW_BITS), few_bits(number % FEW_BITS)),
    }],
};

pub const CHANNEL_BYTES: Maker = Maker {
    call: "channel.bytes",
    share: 2,
    random: |random| format!("{} {}", random.byte(), random.below(65_536)),
    edges: |_| ["256 0", "0 65536", "255 65535"].map(str::to_string).to_vec(),
    short: &[
        Family { size: 256, words: |page| format!("{page} {}", 65_535 - page) },
        Family { size: FEW_BITS, words: |number| format!("0 {}", few_bits(number)) },
    ],
};

pub const POLICY_BYTES: Maker = Maker {
    call: "policy.bytes",
    share: 2,
    random: |random| format!("{} {}", random.below(65_536), random.below(65_536)),
    edges: |_| ["65536 0", "0 65536", "65535 65535"].map(str::to_string).to_vec(),
    short: &[Family {
        size: FEW_BITS * FEW_BITS,
        words: |number| format!("{} {}", few_bits(number / FEW_BITS), few_bits(number % FEW_BITS)),
    }],
};

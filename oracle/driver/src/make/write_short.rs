//! Short records to be written, all of them: families of requests in which one field runs through what it can say.

use super::fields::{Tables, most_bits};
use super::short::{Family, lone_bit, lone_bits};

/// The least that each field can say, types ascending.
pub const LEAST: &[&str] = &[
    "0=-",
    "1=0",
    "2=000",
    "3=0",
    "4=0,0,0,0,0,0,0,-,-",
    "5=0,0000000000000000,-",
    "6=0,0,0,0,0",
    "7=-|-|-",
    "8=-",
    "9=0,0,0,0,0,0,0,0,0",
    "14=0",
    "15=0",
    "16=-",
    "17=-",
    "18=-",
    "23=0000000000000000",
    "30=-",
];

/// The greatest numbers, and about as much else as a short text has.
pub const MUCH: &[&str] = &[
    "0=00ff",
    "1=65535",
    "2=111",
    "3=4294967295",
    "4=1,255,255,255,255,255,255,65535,255",
    "5=255,8000000000000001,0:3:3:15/63:3:3:15",
    "6=4294967295,255,255,255,255",
    "7=255:255:ffffffffffffffffffffffffffffffffffffffffffffffffffffffffffffffff:1.15.255:1:1|65535:3:1|65535:3:11111111",
    "8=ffffffffffffffffffffffffffffffff",
    "9=4294967295,4294967295,4294967295,4294967295,4294967295,4294967295,4294967295,4294967295,4294967295",
    "14=255",
    "15=65535",
    "16=31:3:511:111",
    "17=ff00",
    "18=000102",
    "23=0123456789abcdef",
    "30=65535:511:ffffffffffffffffffffffffffffffff/0:0:-",
];

/// Fields of which all sets are tried, by their places above.
const IN_SETS: &[usize] = &[0, 1, 2, 4, 5, 7, 8, 12, 15, 16];

pub const SHORT: &[Family] = &[
    Family { size: LEAST.len() * 16, words: |number| format!("{} {}", number % 16, LEAST[number / 16]) },
    Family { size: MUCH.len() * 2, words: |number| format!("{} {}", 90 * (1 - number % 2), MUCH[number / 2]) },
    // Two fields in both orders, and one of them twice.
    Family {
        size: LEAST.len() * LEAST.len(),
        words: |number| format!("{} {} {}", 40 + number % 40, LEAST[number / LEAST.len()], MUCH[number % LEAST.len()]),
    },
    Family { size: 1 << IN_SETS.len(), words: |number| format!("{} {}", 20 + number % 100, set_of_fields(number)) },
    Family { size: 8, words: |mode| format!("3 2={mode:03b}") },
    Family { size: 256, words: |number| format!("9 4={},1,2,3,4,5,6,-,-", number as i64 - 128) },
    Family { size: 8 * 4, words: late_fields },
    Family { size: 5 * 5 * 17, words: one_route },
    // Each router with its neighbours' numbers, and by itself with the mask of another.
    Family { size: 64 * 3, words: |number| router_alone(number / 3, (number / 3 + number % 3).wrapping_sub(1)) },
    Family { size: 8 * 256, words: |number| routers_of_byte(number % 8, number / 8) },
    Family { size: 34 * 5 * 8, words: one_child },
    Family { size: 515, words: |id| format!("5 16=16:0:{id}:110") },
    Family { size: 17 * 17, words: one_list },
    Family { size: 256, words: |flags| format!("14 7=1:0:-:-:0:1|-|10241:{}:{flags:08b}", flags % 4) },
    Family { size: 6 * 2 * 2, words: preferences },
    Family { size: 2 * 18 * 5, words: one_context },
    Family { size: 256 * 3, words: |number| one_prefix(number / 3, number % 3) },
    Family { size: 9 * 16, words: |number| counted(&[number / 16], number % 16) },
    Family { size: 81 * 16, words: |number| counted(&[number / 16 / 9, number / 16 % 9], number % 16) },
    // Each bit of each number, and of bytes.
    Family { size: 16, words: |bit| format!("4 1={}", 1u16 << bit) },
    Family { size: 32, words: |bit| format!("6 3={}", 1u32 << bit) },
    Family { size: 8, words: |bit| format!("3 14={}", 1u8 << bit) },
    Family { size: 16, words: |bit| format!("4 15={}", 1u16 << bit) },
    Family { size: 72, words: connectivity_bit },
    Family { size: 64, words: leader_data_bit },
    Family { size: 9 * 32, words: |number| format!("38 9={}", one_of(9, number / 32, 1u64 << (number % 32), "0")) },
    Family { size: lone_bits(8), words: |number| format!("10 23={}", hex::encode(lone_bit(8, number))) },
];

fn set_of_fields(number: usize) -> String {
    let chosen = IN_SETS.iter().enumerate().filter(|(bit, _)| number >> bit & 1 == 1);
    let words: Vec<&str> = chosen.map(|(bit, place)| [LEAST, MUCH][bit % 2][*place]).collect();
    if words.is_empty() { "-".to_string() } else { words.join(" ") }
}

/// Numbers parted by `,`, one of them this one.
fn one_of(count: usize, place: usize, number: u64, others: &str) -> String {
    let cell = |other| if other == place { number.to_string() } else { others.to_string() };
    (0..count).map(cell).collect::<Vec<String>>().join(",")
}

/// Priorities about their bits, with the late fields both, none, and each alone.
fn late_fields(number: usize) -> String {
    let late = ["7,8", "-,-", "7,-", "-,8"][number % 4];
    format!("12 4={},1,2,3,4,5,6,{late}", (number / 4) as i64 - 4)
}

fn connectivity_bit(number: usize) -> String {
    match number {
        0..48 => format!("12 4=0,{},0,0", one_of(6, number / 8, 1 << (number % 8), "0")),
        48..64 => format!("12 4=0,0,0,0,0,0,0,{},0", 1 << (number - 48)),
        _ => format!("12 4=0,0,0,0,0,0,0,0,{}", 1 << (number - 64)),
    }
}

fn leader_data_bit(number: usize) -> String {
    match number {
        0..32 => format!("10 6={},0,0,0,0", 1u64 << number),
        _ => format!("10 6=0,{}", one_of(4, number / 8 - 4, 1 << (number % 8), "0")),
    }
}

fn one_route(number: usize) -> String {
    let (out, incoming, cost) = (number / 85, number / 17 % 5, number % 17);
    format!("12 5=7,0000010000000000,23:{out}:{incoming}:{cost}")
}

fn router_alone(bit: usize, router: usize) -> String {
    let mask = 1u64 << (63 - bit);
    // What would be below 0 is a router that no mask has.
    format!("12 5=7,{mask:016x},{}:1:2:3", if router < 256 { router } else { 255 })
}

/// The routers of one byte of the mask, which stands at one of its eight places.
fn routers_of_byte(place: usize, byte: usize) -> String {
    let mask = (byte as u64) << (56 - 8 * place);
    let routers = (0..64).filter(|router| mask & (1 << (63 - router)) != 0);
    let rows: Vec<String> = routers.map(|router| format!("{router}:{}:1:{}", router % 4, router % 16)).collect();
    format!("19 5=0,{mask:016x},{}", if rows.is_empty() { "-".to_string() } else { rows.join("/") })
}

fn one_child(number: usize) -> String {
    let (exponent, quality, mode) = (number / 40, number / 8 % 5, number % 8);
    format!("5 16={exponent}:{quality}:261:{mode:03b}")
}

/// RLOC16s and IDs of one bit, or none.
fn one_list(number: usize) -> String {
    let lone = |number: usize| number.checked_sub(1).map_or(0, |bit| 1 << bit);
    format!("4 30={}:{}:-", lone(number / 17), lone(number % 17))
}

/// Preferences about their bits, of a HasRoute row or of a BorderRouter row.
fn preferences(number: usize) -> String {
    let (preference, bit) = (number / 4, number / 2 % 2);
    match number % 2 {
        0 => format!("11 7=0:0:-:-:1:0|10241:{preference}:{bit}|-"),
        _ => format!("12 7=0:0:-:-:0:1|-|10241:{preference}:{bit}0000000"),
    }
}

fn one_context(number: usize) -> String {
    let (compress, id, length) = (number / 90, number / 5 % 18, [0, 64, 128, 129, 255][number % 5]);
    format!("11 7=0:8:fd:{compress}.{id}.{length}:0:0|-|-")
}

/// Each bit length with a byte too few, its bytes, and a byte too many.
fn one_prefix(bits: usize, more: usize) -> String {
    let length = (bits.div_ceil(8) + more).saturating_sub(1);
    let bytes = if length == 0 { "-".to_string() } else { "5a".repeat(length) };
    format!("{} 7=0:{bits}:{bytes}:-:0:0|-|-", 6 + usize::from(most_bits(length) / 8))
}

/// Prefixes that count zero to two rows of each kind, and tables of zero to three.
fn counted(prefixes: &[usize], rows: usize) -> String {
    let mut tables = Tables::of("-|-|-");
    for counts in prefixes {
        tables.prefixes.push(&format!("0:0:-:-:{}:{}", counts / 3, counts % 3));
    }
    for number in 0..rows / 4 {
        tables.has_routes.push(&format!("{number}:{number}:0"));
    }
    for number in 0..rows % 4 {
        tables.border_routers.push(&format!("{number}:{number}:00000001"));
    }
    format!("40 7={}", tables.text())
}

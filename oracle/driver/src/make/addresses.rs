//! Requests on addresses as text: `addrtext`, `textaddr`.

use super::Maker;
use super::address_texts::{Address, address, parted, random_text, text_edges};
use super::caps::{need_of, with_cap, with_each_edge_cap};
use super::short::{Family, ZERO_OR_ONE_BYTE, lone_bit, lone_bits, string, strings, zero_or_one_byte};
use crate::calls::GROUPS;
use crate::random::Random;
use crate::words::bytes_word;

const ADDRESS_BYTES: usize = 2 * GROUPS;

/// The characters of the longest text.
const LONGEST: u64 = 39;

pub const ADDRTEXT: Maker = Maker {
    call: "addrtext",
    share: 10,
    random: random_addrtext,
    edges: addrtext_edges,
    short: &[
        Family { size: 256 * 5, words: |number| with_cap_in_turn(&zeros_among_others(number / 5), number % 5) },
        Family { size: strings(3, 8, 8), words: |number| with_longest(&of_three(number)) },
        Family { size: DIGITS.len() * GROUPS * 2, words: |number| with_longest(&one_among_equals(number)) },
        // Each byte as either half of a group.
        Family { size: 2 * 256, words: |number| with_longest(&[0, 0, 0, 0, 0, 0, 1, half_of_group(number)]) },
        Family { size: lone_bits(16), words: |number| format!("{} {LONGEST}", bytes_word(&lone_bit(16, number))) },
        Family { size: 8 * ADDRESS_BYTES, words: |bit| with_longest(&beside_ipv4_mapped(bit)) },
    ],
};

fn address_word(address: &Address) -> String {
    address.iter().map(|group| format!("{group:04x}")).collect()
}

fn with_longest(address: &Address) -> String {
    format!("{} {LONGEST}", address_word(address))
}

/// Nothing, a byte too few, just enough, enough for any text, and more.
fn with_cap_in_turn(address: &Address, turn: usize) -> String {
    let word = address_word(address);
    let need = need_of("addrtext", &word).expect("every address has a text");
    format!("{word} {}", [0, need - 1, need, LONGEST, 64][turn])
}

/// All sets of zero groups, by number, among groups of one to four digits.
fn zeros_among_others(number: usize) -> Address {
    const OTHERS: Address = [0x1, 0x23, 0x456, 0x789a, 0xb, 0xcd, 0xef0, 0x1000];
    std::array::from_fn(|place| if number >> place & 1 == 1 { OTHERS[place] } else { 0 })
}

/// All addresses of groups without a bit, with one, and with all.
fn of_three(number: usize) -> Address {
    let groups = string(&[0, 1, 2], 8, number);
    std::array::from_fn(|place| [0, 1, 0xffff][usize::from(groups[place])])
}

/// The first and last of each number of digits, and those where the letters begin.
const DIGITS: &[u16] = &[0, 1, 9, 0xa, 0xf, 0x10, 0xff, 0x100, 0xfff, 0x1000, 0x9999, 0xa000, 0xffff];

/// One of these in each place, the others all zero or all not.
fn one_among_equals(number: usize) -> Address {
    let mut address = [[0, 0xabc][number % 2]; GROUPS];
    address[number / 2 % GROUPS] = DIGITS[number / 2 / GROUPS];
    address
}

fn half_of_group(number: usize) -> u16 {
    (number as u16 / 2) << (8 * (number % 2))
}

/// An address that the standard library writes with dots, but for one bit.
fn beside_ipv4_mapped(bit: usize) -> Address {
    let mut address = [0, 0, 0, 0, 0, 0xffff, 0x0102, 0x0304];
    address[bit / 16] ^= 0x8000 >> (bit % 16);
    address
}

fn random_addrtext(random: &mut Random) -> String {
    let word = if random.once_in(40) {
        let length = random.below(34);
        bytes_word(&random.bytes(length))
    } else {
        address_word(&address(random))
    };
    with_cap(random, "addrtext", &word)
}

/// The addresses of the RFCs' examples; one zero group, equal runs, a run at either end, all zeros and none; and those that
/// have an IPv4 address within them.
const ADDRESSES: &[Address] = &[
    [0xabcd, 0xef01, 0x2345, 0x6789, 0xabcd, 0xef01, 0x2345, 0x6789],
    [0x2001, 0xdb8, 0, 0, 0x8, 0x800, 0x200c, 0x417a],
    [0xff01, 0, 0, 0, 0, 0, 0, 0x101],
    [0, 0, 0, 0, 0, 0, 0, 1],
    [0, 0, 0, 0, 0, 0, 0, 0],
    [0x2001, 0xdb8, 0, 0, 1, 0, 0, 1],
    [0x2001, 0xdb8, 0, 1, 1, 1, 1, 1],
    [0x2001, 0, 0, 1, 0, 0, 0, 1],
    [0x2001, 0xdb8, 0, 0, 0, 0, 2, 1],
    [0x2001, 0xdb8, 0xaaaa, 0xbbbb, 0xcccc, 0xdddd, 0, 1],
    [0xffff; GROUPS],
    [1; GROUPS],
    [1, 1, 1, 0, 1, 1, 1, 1],
    [0, 1, 1, 1, 1, 1, 1, 1],
    [1, 1, 1, 1, 1, 1, 1, 0],
    [0, 1, 0, 1, 0, 1, 0, 1],
    [1, 0, 1, 0, 1, 0, 1, 0],
    [1, 0, 0, 2, 3, 0, 0, 4],
    [0, 0, 1, 0, 0, 1, 0, 0],
    [0, 0, 0, 1, 1, 0, 0, 0],
    [0, 0, 1, 0, 0, 0, 1, 1],
    [1, 1, 0, 0, 0, 1, 0, 0],
    [1, 1, 1, 1, 1, 1, 0, 0],
    [0, 0, 1, 1, 1, 1, 1, 1],
    [1, 0, 0, 0, 0, 0, 0, 0],
    [0, 0, 0, 0, 0, 0xffff, 0x8190, 0x3426],
    [0, 0, 0, 0, 0, 0xffff, 0, 0],
    [0, 0, 0, 0, 0, 0xffff, 0, 1],
    [0, 0, 0, 0, 0, 0xffff, 0xffff, 0xffff],
    [0, 0, 0, 0, 0, 0, 0x0d01, 0x4403],
    [0, 0, 0, 0, 0xffff, 0, 0x0102, 0x0304],
    [0, 0, 0, 0, 1, 0xffff, 0x0102, 0x0304],
    [0x64, 0xff9b, 0, 0, 0, 0, 0xc000, 0x0221],
    [0xfe80, 0, 0, 0, 0, 0x5efe, 0xc000, 0x0221],
];

fn addrtext_edges(random: &mut Random) -> Vec<String> {
    let mut edges: Vec<String> = ADDRESSES.iter().flat_map(edge_caps_of).collect();
    for length in (0..=ADDRESS_BYTES + 1).chain([32]) {
        edges.push(format!("{} {LONGEST}", bytes_word(&random.bytes(length))));
    }
    edges
}

fn edge_caps_of(address: &Address) -> Vec<String> {
    with_each_edge_cap("addrtext", &address_word(address))
}

pub const TEXTADDR: Maker = Maker {
    call: "textaddr",
    share: 16,
    random: |random| {
        let words = bytes_word(&random_text(random));
        with_cap(random, "textaddr", &words)
    },
    edges: |_| text_edges().iter().flat_map(|text| with_each_edge_cap("textaddr", &bytes_word(text))).collect(),
    short: &[
        Family { size: ZERO_OR_ONE_BYTE, words: |number| text_words(number, &zero_or_one_byte(number)) },
        Family { size: BESIDE_ANY.len() * 256, words: |number| text_words(number, &with_any_byte(number)) },
        Family { size: strings(2, 1, 11), words: |number| text_words(number, parted(&fields(1, number)).as_bytes()) },
        Family { size: strings(2, 0, 8), words: |number| text_words(number, &dotted(number)) },
        Family { size: 256, words: |number| text_words(number, &of_short_and_long(number)) },
        Family { size: strings(FORKS.len(), 5, 8), words: |number| text_words(number, &string(FORKS, 5, number)) },
        Family { size: strings(DIGIT_FORKS.len(), 1, 4), words: |number| text_words(number, &one_group(number)) },
        Family {
            size: strings(TEXT_FORKS.len(), 2, 4),
            words: |number| text_words(number, &string(TEXT_FORKS, 2, number)),
        },
    ],
};

/// The text; one time in seven the output that is lent is a byte too short.
fn text_words(number: usize, text: &[u8]) -> String {
    format!("{} {}", bytes_word(text), ADDRESS_BYTES - 1 + number % 7)
}

/// The colon, and the digits that show most, for texts of some length.
const FORKS: &[u8] = b":0f";

/// Digits, letters of both cases, the marks of all forms and of what is none, and blanks.
const TEXT_FORKS: &[u8] = b"01aFg:.%/ \n";

/// The first and the last of the digits and of the letters.
const DIGIT_FORKS: &[u8] = b"09afAF";

fn one_group(number: usize) -> Vec<u8> {
    [b"::", &string(DIGIT_FORKS, 1, number)[..]].concat()
}

/// What stands before and after a byte that is tried with all its values.
const BESIDE_ANY: &[(&str, &str)] = &[
    ("::", ""),
    ("", "::"),
    ("::1", ""),
    ("1", "::2"),
    ("::000", ""),
    ("", "1:2:3:4:5:6:7:8"),
    ("1", "2:3:4:5:6:7:8"),
    ("1:2:3:4:5:6:7:", ""),
    ("1:2:3:4:5:6:7:8", ""),
];

fn with_any_byte(number: usize) -> Vec<u8> {
    let (before, after) = BESIDE_ANY[number / 256];
    [before.as_bytes(), &[number as u8], after.as_bytes()].concat()
}

/// `least` fields or more, by number, each empty or with one digit, and no digit twice.
fn fields(least: u32, number: usize) -> Vec<String> {
    let field = |(there, digit): (u8, usize)| if there == 1 { format!("{digit:x}") } else { String::new() };
    string(&[0, 1], least, number).into_iter().zip(1..).map(field).collect()
}

/// Such fields before an IPv4 address, which make form 3 and what is near it.
fn dotted(number: usize) -> Vec<u8> {
    let mut fields = fields(0, number);
    fields.push("1.2.3.4".to_string());
    parted(&fields).into_bytes()
}

/// Eight groups, each of one digit or of four.
fn of_short_and_long(number: usize) -> Vec<u8> {
    let field = |place: usize| if number >> place & 1 == 1 { format!("0{place}aF") } else { format!("{place}") };
    parted(&(0..GROUPS).map(field).collect::<Vec<_>>()).into_bytes()
}

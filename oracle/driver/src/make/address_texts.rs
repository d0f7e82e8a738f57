//! Addresses as text for requests: random ones in any legal way, changed ones, and those at each boundary of the forms.

use super::texts::change_case;
use crate::calls::GROUPS;
use crate::random::Random;
use crate::sizes::{MOST_BYTES, MOST_HEX_DIGITS, OLDER_BYTES};

pub type Address = [u16; GROUPS];

/// Many zeros, so that there are runs of them, and of the other groups many of few digits.
pub fn address(random: &mut Random) -> Address {
    let mut address = [0; GROUPS].map(|_: u16| group(random));
    if random.once_in(16) {
        // The IPv4-mapped ones, and those beside them.
        address[..5].fill(0);
        address[5] = random.pick(&[0xffff, 0xffff, 0xfffe, 0]);
    }
    address
}

fn group(random: &mut Random) -> u16 {
    if random.once_in(2) { 0 } else { random.next() as u16 >> random.pick(&[0, 4, 8, 12]) }
}

/// Fields, and a colon between any two.
pub fn parted(fields: &[String]) -> String {
    fields.join(":")
}

/// In half of the cases a legal text; else one that was changed, has something after its end or dots, or is of any fields.
pub fn random_text(random: &mut Random) -> Vec<u8> {
    match random.below(16) {
        0..=7 => legal_text(random),
        8..=12 => changed_text(random),
        13 => [legal_text(random), random.pick(ENDS).to_vec()].concat(),
        14 => dotted_text(random),
        _ => loose_text(random),
    }
}

/// An address in one of its legal ways: with leading zeros or without, in either case, `::` for one or more of its zeros.
fn legal_text(random: &mut Random) -> Vec<u8> {
    let address = address(random);
    let fields = address.map(|group| digits(random, group));
    let start = random.below(GROUPS);
    let zeros = address[start..].iter().take_while(|group| **group == 0).count();
    let mut text = match zeros {
        0 => parted(&fields),
        _ => with_gap(&fields[..start], &fields[start + random.between(1, zeros)..]),
    }
    .into_bytes();
    change_case(random, &mut text);
    text
}

fn with_gap(before: &[String], after: &[String]) -> String {
    format!("{}::{}", parted(before), parted(after))
}

fn digits(random: &mut Random, group: u16) -> String {
    let least = random.pick(&[1, 1, 1, 1, 2, 3, 4]);
    format!("{group:0least$x}")
}

/// One change or two, each of a character: lost, doubled, another, or one more.
fn changed_text(random: &mut Random) -> Vec<u8> {
    let mut text = legal_text(random);
    for _ in 0..random.between(1, 2) {
        let place = random.below(text.len());
        match random.below(4) {
            0 => drop(text.remove(place)),
            1 => text.insert(place, text[place]),
            2 => text[place] = character(random),
            _ => text.insert(place, character(random)),
        }
    }
    text
}

/// Colons most often, digits, their neighbours in ASCII, and marks of what no form has.
fn character(random: &mut Random) -> u8 {
    match random.below(8) {
        0..=2 => b':',
        3..=4 => random.pick(b"09afAF"),
        5..=6 => random.pick(b".;/@Gg`%-+x[] \t\r\n\0"),
        _ => random.byte(),
    }
}

/// What stands after an address elsewhere, or would make it longer.
const ENDS: &[&[u8]] = &[
    b"\n", b"\r\n", b" ", b"\0", b"%1", b"%eth0", b"/64", b"/128", b"]:80", b"#80", b".80", b":", b"::", b":0",
    b"00000",
];

/// The last two groups, or others, as an IPv4 address.
fn dotted_text(random: &mut Random) -> Vec<u8> {
    let text = String::from_utf8(legal_text(random)).expect("ASCII alone");
    let mut fields: Vec<&str> = text.split(':').collect();
    let lost = if random.once_in(4) { random.below(fields.len()) } else { 2 };
    fields.truncate(fields.len() - lost);
    let numbers: Vec<String> = (0..4).map(|_| random.below(260).to_string()).collect();
    let dotted = numbers.join(".");
    fields.push(&dotted);
    fields.join(":").into_bytes()
}

/// About as many fields as an address has, some of them empty, and few of five digits.
fn loose_text(random: &mut Random) -> Vec<u8> {
    let fields: Vec<String> = (0..random.between(1, 10)).map(|_| loose_field(random)).collect();
    parted(&fields).into_bytes()
}

fn loose_field(random: &mut Random) -> String {
    let group = group(random);
    match random.below(32) {
        0..=3 => String::new(),
        4 => format!("{group:05x}"),
        _ => digits(random, group),
    }
}

/// Texts of each kind that is in no form, the RFCs' examples, `::` beside seven groups and eight, and long texts.
pub fn text_edges() -> Vec<Vec<u8>> {
    let mut edges: Vec<Vec<u8>> = ODD_TEXTS.iter().map(|text| text.to_vec()).collect();
    edges.extend(OF_RFC_4291.iter().chain(OF_RFC_5952).map(|text| text.as_bytes().to_vec()));
    for groups in [7, 8] {
        let fields: Vec<String> = (1..=groups).map(|group| group.to_string()).collect();
        edges.extend((0..=groups).map(|place| with_gap(&fields[..place], &fields[place..]).into_bytes()));
    }
    for length in [OLDER_BYTES + 1, MOST_BYTES, MOST_BYTES + 1, MOST_HEX_DIGITS + 1] {
        let parts: [(&[u8], u8); 4] = [(b"", b':'), (b"::", b'0'), (b"1:2:3:4:5:6:7:8", b' '), (b"::1", 0)];
        edges.extend(parts.map(|(start, fill)| filled(start, fill, length)));
    }
    // As many groups and digits as there may be, if they are counted in one byte or in two.
    for more in [256, 65_536] {
        edges.push(parted(&vec!["1".to_string(); GROUPS + more]).into_bytes());
        edges.push(filled(b"::", b'0', "::0000".len() + more));
    }
    edges
}

fn filled(start: &[u8], fill: u8, length: usize) -> Vec<u8> {
    [start, &vec![fill; length - start.len()]].concat()
}

/// RFC 4291, sections 2.2 and 2.3: forms 1, 2 and 3, and prefixes.
const OF_RFC_4291: &[&str] = &[
    "ABCD:EF01:2345:6789:ABCD:EF01:2345:6789",
    "2001:DB8:0:0:8:800:200C:417A",
    "FF01:0:0:0:0:0:0:101",
    "0:0:0:0:0:0:0:1",
    "0:0:0:0:0:0:0:0",
    "2001:DB8::8:800:200C:417A",
    "FF01::101",
    "::1",
    "::",
    "0:0:0:0:0:0:13.1.68.3",
    "0:0:0:0:0:FFFF:129.144.52.38",
    "::13.1.68.3",
    "::FFFF:129.144.52.38",
    "2001:0DB8:0000:CD30:0000:0000:0000:0000/60",
    "2001:0DB8::CD30:0:0:0:0/60",
    "2001:0DB8:0:CD30::/60",
    "2001:0DB8:0:CD3/60",
    "2001:0DB8::CD30/60",
];

/// RFC 5952: the ways to write one address, and an address with a port.
const OF_RFC_5952: &[&str] = &[
    "2001:db8:0:0:1:0:0:1",
    "2001:0db8:0:0:1:0:0:1",
    "2001:db8::1:0:0:1",
    "2001:db8::0:1:0:0:1",
    "2001:0db8::1:0:0:1",
    "2001:db8:0:0:1::1",
    "2001:db8:0000:0:1::1",
    "2001:DB8:0:0:1::1",
    "2001:db8:aaaa:bbbb:cccc:dddd:eeee:0001",
    "2001:db8:aaaa:bbbb:cccc:dddd:eeee:001",
    "2001:db8:aaaa:bbbb:cccc:dddd:eeee:01",
    "2001:db8:aaaa:bbbb:cccc:dddd::1",
    "2001:db8:aaaa:bbbb:cccc:dddd:0:1",
    "2001:db8:0:0:0::1",
    "2001:db8:0::1",
    "2001:db8::aaaa:0:0:1",
    "2001:db8:aaaa:bbbb:cccc:dddd:eeee:AaAa",
    "2001:db8::1:1:1:1:1",
    "2001:0:0:1::1",
    "::ffff:192.0.2.1",
    "[2001:db8::1]:80",
    "2001:db8::1:80",
    "2001:db8::1.80",
    "2001:db8::1 port 80",
    "2001:db8::1p80",
    "2001:db8::1#80",
];

/// Nothing, blanks, colons, too few and too many of them, digits that are none or too many, zones, and dots; and a few
/// texts beside these that are in form 1 or 2.
#[rustfmt::skip]
const ODD_TEXTS: &[&[u8]] = &[
    b"", b" ", b"\n", b"\0", b"-", b"0", b"1", b":", b":::", b"::::", b"1:", b":1", b"1:2", b"ffff",
    b"1:2:3:4:5:6:7", b"1:2:3:4:5:6:7:8", b"1:2:3:4:5:6:7:8:9", b":1:2:3:4:5:6:7:8", b"1:2:3:4:5:6:7:8:",
    b"1:2:3:4:5:6:7:", b":2:3:4:5:6:7:8", b":1:2:3:4:5:6:7", b"1:2:3:4:5:6::7:8:", b":1::2", b"1::2:", b"1:::2",
    b":::1", b"1:::", b"1::2::3", b"::1::", b"1::::2", b"::1:2:3::", b"::::1:2:3:4:5:6", b"1:2:3::4::5:6:7",
    b"ffff:ffff:ffff:ffff:ffff:ffff:ffff:ffff", b"0000:0000:0000:0000:0000:0000:0000:0000",
    b"0ffff:ffff:ffff:ffff:ffff:ffff:ffff:ffff", b"ffff:ffff:ffff:ffff:ffff:ffff:ffff:ffff0",
    b"ffff:ffff:ffff:ffff:ffff:ffff:ffff:ffff:", b":ffff:ffff:ffff:ffff:ffff:ffff:ffff:ffff",
    b"ffff:ffff:ffff:ffff:ffff:ffff:ffff::", b"::ffff:ffff:ffff:ffff:ffff:ffff:ffff",
    b"ffff:ffff:ffff:ffff:ffff:ffff:ffff:ffff\n", b"ffff:ffff:ffff:fffffffff:ffff:ffff:ffff", b"0001::", b"00001::",
    b"::0000", b"::00000", b"::12345", b"::10000", b"12345::1", b"1:2:3:4:5:6:7:00008", b"1:2:3:00004:5:6:7:8",
    b"::g", b"::G", b"g::", b"::fg", b"::/", b"::@", b"::`", b"::;", b"::-1", b"::+1", b"+1::", b"-::", b"::0x1",
    b"::1h", b"::_1", b" ::1", b"::1 ", b":: 1", b": :1", b"1 ::", b"::1\n", b"::1\r\n", b"::1\r", b"\n::1",
    b"\t::1", b"::1\0", b"\0::1", b"::\0", b"::\x0b", b"fe80::1%eth0", b"fe80::1%1", b"fe80::1%", b"fe80%1::",
    b"::%", b"%", b"::1%25", b"::/0", b"::1/128", b"/64", b"[::1]", b"[::1", b"::1]", b"1.2.3.4", b"::1.2.3.4",
    b"::ffff:1.2.3.4", b"1:2:3:4:5:6:7.8.9.10", b"1:2:3:4:5::7.8.9.10", b"::2:3:4:5:6:7.8.9.10",
    b"64:ff9b::192.0.2.33", b"1:2:3:4:5:6:7:8.9.10.11", b"1:2:3:4:5:6::7.8.9.10", b"1.2.3.4::",
    b"1.2.3.4:3:4:5:6:7:8", b"::1.2.3.4:5", b"::1.2.3", b"::1.2.3.4.5", b"::256.1.1.1", b"::01.2.3.4",
    b"::1.2.3.4 ", b"::0.0.0.0", b"::255.255.255.255", b"::FFFF:0.0.0.0", b".", b"::.", b".::", b"::1.", b"::.1",
    b"1.::", b"1.2::", b"::\xc3\xa9", b"::\xef\xbc\x91", b"\xef\xbc\x9a\xef\xbc\x9a1", b"::\xd9\xa1",
    b"\xef\xbb\xbf::1", b"::\xff", b"::\x80", b"\xc3::", b"::1\xb1", b"\xba\xba1",
];

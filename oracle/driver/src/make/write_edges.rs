//! Records to be written about each boundary, and fields that can just not be read.

use super::about::{byte_edges, entry_edges};
use super::caps::{self, with_each_edge_cap_before, with_edge_caps_before_in_turn};
use super::datasets::HEADER_EDGES;
use super::diag_values::TYPES;
use super::field_faults::{Bound, CHILD_BOUNDS, PREFERENCE_BOUNDS, ROUTE_BOUNDS, many_children};
use super::fields::{Fields, good_text, prefix_of_size, prefix_with_rows, words_of_fields};
use super::write_short::{LEAST, MUCH};
use crate::random::Random;
use crate::sizes::MOST_ENTRIES;
use crate::words::bytes_word;

/// What an entry may hold.
const LONGEST: usize = 65_535;

pub fn edges(random: &mut Random) -> Vec<String> {
    let mut edges = with_edge_caps_before_in_turn(&field_edges(random));
    for record in payload_edges(random).iter().chain(&all_fields(random)) {
        edges.extend(with_each_edge_cap_before(record));
    }
    edges.extend(orders());
    edges.extend(unreadable());
    edges
}

/// Each field about its own boundaries.
fn field_edges(random: &mut Random) -> Vec<String> {
    let mut edges = longest_values(random);
    edges.extend(bounds());
    edges.extend(header_edges(random));
    edges.extend(byte_lengths(random));
    edges.extend(route64_edges());
    edges.extend(table_edges());
    edges.extend(prefix_edges(random));
    edges.extend(many_lists());
    edges
}

/// 13, of each type that can have it.
fn longest_values(random: &mut Random) -> Vec<String> {
    let mut edges = vec![
        format!("16={}", many_children(LONGEST / 3)),
        format!("16={}", many_children(LONGEST / 3 + 1)),
        // Whole addresses come to the length with the RLOC16 only past it.
        format!("30=10241:1:{}", bytes_word(&random.bytes(65_520))),
        format!("30=10241:1:{}", bytes_word(&random.bytes(65_536))),
        format!("30=10241:1:{}", bytes_word(&random.bytes(LONGEST - 2))),
        format!("30=1:1:-/10241:1:{}", bytes_word(&random.bytes(LONGEST - 1))),
        format!("8={}", bytes_word(&random.bytes(65_520))),
        format!("8={}", bytes_word(&random.bytes(LONGEST))),
        format!("8={}", bytes_word(&random.bytes(65_536))),
    ];
    for ty in [0, 17, 18] {
        edges.push(format!("{ty}={}", bytes_word(&random.bytes(LONGEST))));
        edges.push(format!("{ty}={}", bytes_word(&random.bytes(LONGEST + 1))));
    }
    // Not 13: a value of another length has no encoding.
    edges.push(format!("23={}", bytes_word(&random.bytes(LONGEST + 1))));
    edges.push(format!("7=0:8:{}:-:0:0|-|-", bytes_word(&random.bytes(LONGEST + 1))));
    edges
}

/// Each number that has fewer bits than a request can say: at its bound, just over it, and far over it.
fn bounds() -> Vec<String> {
    let mut edges = Vec::new();
    edges.extend(at_bounds(ROUTE_BOUNDS, "0:0:0:0", |row| format!("5=0,8000000000000000,{row}")));
    edges.extend(at_bounds(CHILD_BOUNDS, "0:0:0:000", |row| format!("16={row}")));
    edges.extend(at_bounds(CHILD_BOUNDS, "0:0:0:111", |row| format!("16=31:3:511:111/{row}/0:0:0:000")));
    edges.extend(at_bounds(PREFERENCE_BOUNDS, "0:0:0", |row| format!("7=0:0:-:-:1:0|{row}|-")));
    edges.extend(at_bounds(PREFERENCE_BOUNDS, "0:0:00000000", |row| format!("7=0:0:-:-:0:1|-|{row}")));
    edges.extend([15, 16, 255].map(|id| format!("7=0:0:-:0.{id}.0:0:0|-|-")));
    edges.extend([-128, -3, -2, -1, 0, 1, 2, 127].map(|priority| format!("4={priority},0,0,0,0,0,0,65535,255")));
    edges
}

fn at_bounds(bounds: &[Bound], row: &str, text: fn(&str) -> String) -> Vec<String> {
    let mut edges = Vec::new();
    for (place, most, top) in bounds {
        for number in [*most, most + 1, *top] {
            let mut cells: Vec<&str> = row.split(':').collect();
            let number = number.to_string();
            cells[*place] = &number;
            edges.push(text(&cells.join(":")));
        }
    }
    edges
}

/// Values about the length at which the header grows.
fn header_edges(random: &mut Random) -> Vec<String> {
    let mut edges = Vec::new();
    for length in HEADER_EDGES {
        edges.extend([0, 17, 18].map(|ty| format!("{ty}={}", bytes_word(&random.bytes(length)))));
        edges.push(format!("7={}", network_data_of_length(length)));
    }
    for length in [240, 256, 272] {
        edges.push(format!("8={}", bytes_word(&random.bytes(length))));
        edges.push(format!("30=1:1:-/65535:511:{}", bytes_word(&random.bytes(length))));
    }
    edges.extend([84, 85, 86].map(|rows| format!("16={}", many_children(rows))));
    edges
}

/// Network Data of so many bytes, 40 or more, in prefixes of four and one of up to eight.
fn network_data_of_length(length: usize) -> String {
    let bits = 8 * (length % 4);
    let bytes = if bits == 0 { "-".to_string() } else { "fd".repeat(length % 4) };
    let last = format!("0:{bits}:{bytes}:-:0:0");
    let prefixes = [vec!["0:0:-:-:0:0"; length / 4 - 1], vec![&last]].concat();
    format!("{}|-|-", prefixes.join("/"))
}

/// Bytes that are whole addresses, an EUI-64, or not quite.
fn byte_lengths(random: &mut Random) -> Vec<String> {
    let mut edges = Vec::new();
    for length in [0, 1, 15, 16, 17, 31, 32, 33] {
        edges.push(format!("8={}", bytes_word(&random.bytes(length))));
        edges.push(format!("30=10241:1:{}", bytes_word(&random.bytes(length))));
        edges.push(format!("30=10241:1:-/1023:511:{}/0:0:-", bytes_word(&random.bytes(length))));
    }
    edges.extend([0, 1, 7, 8, 9, 16].map(|length| format!("23={}", bytes_word(&random.bytes(length)))));
    edges.extend(
        ["10241:10241", "512:512", "511:511", "512:0", "65535:511", "0:512", "0:1", "1:0"]
            .map(|row| format!("30={row}:-")),
    );
    edges
}

/// All routers, all but one, a row too few or too many at each end, and rows that do not ascend.
fn route64_edges() -> Vec<String> {
    let row = |router: usize| format!("{router}:{}:{}:{}", router % 4, router / 4 % 4, router % 16);
    let rows = |routers: &[usize]| routers.iter().map(|router| row(*router)).collect::<Vec<_>>().join("/");
    let all: Vec<usize> = (0..64).collect();
    let swapped = [&[1, 0], &all[2..]].concat();
    vec![
        format!("5=1,ffffffffffffffff,{}", rows(&all)),
        format!("5=1,ffffffffffffffff,{}", rows(&all[1..])),
        format!("5=1,ffffffffffffffff,{}", rows(&all[..63])),
        format!("5=1,ffffffffffffffff,{}", rows(&[&all[..], &[64]].concat())),
        format!("5=1,ffffffffffffffff,{}", rows(&[&all[..], &[63]].concat())),
        format!("5=1,ffffffffffffffff,{}", rows(&swapped)),
        format!("5=1,fffffffffffffffe,{}", rows(&all)),
        format!("5=1,fffffffffffffffe,{}", rows(&all[..63])),
        format!("5=1,7fffffffffffffff,{}", rows(&all[1..])),
        format!("5=1,7fffffffffffffff,{}", rows(&all[..63])),
        "5=1,8000000000000000,-".to_string(),
        "5=1,0000000000000000,0:0:0:0".to_string(),
        "5=1,c000000000000000,1:0:0:0/0:0:0:0".to_string(),
        "5=1,c000000000000000,0:0:0:0/0:0:0:0".to_string(),
        "5=1,8000000000000001,0:0:0:0/255:0:0:0".to_string(),
    ]
}

/// Prefixes and rows about their numbers, counted and not.
fn table_edges() -> Vec<String> {
    let mut edges = Vec::new();
    for prefixes in 63..=66 {
        edges.push(format!("7={}|-|-", vec!["0:8:fd:0.1.64:0:0"; prefixes].join("/")));
        edges.push(format!("7={}|-|-", vec!["0:8:-:-:0:0"; prefixes].join("/")));
    }
    for rows in 95..=98 {
        let prefixes = |counts: fn(usize) -> String| {
            let counted = |rows: usize| format!("0:0:-:-:{}", counts(rows));
            [counted(40), counted(0), counted(40), counted(rows - 80)].join("/")
        };
        edges.push(format!("7={}", prefix_with_rows(&prefixes(|rows| format!("{rows}:0")), rows, 0)));
        edges.push(format!("7={}", prefix_with_rows(&prefixes(|rows| format!("0:{rows}")), 0, rows)));
        edges.push(format!("7={}", prefix_with_rows("-", rows, 0)));
        edges.push(format!("7={}", prefix_with_rows("-", 0, rows)));
    }
    // Counts that come to the rows only in 64 bits.
    let half = 1u64 << 63;
    edges.push(format!("7=0:0:-:-:{half}:0/0:0:-:-:{}:0|1:0:0|-", half + 1));
    edges.push(format!("7=0:0:-:-:0:{half}/0:0:-:-:0:{half}|-|-"));
    edges.push(format!("7=0:0:-:-:{0}:{0}|-|-", u64::MAX));
    edges.push(format!("7=0:0:-:-:{}:0/0:0:-:-:1:0|-|-", u64::MAX));
    edges
}

/// Prefix values about 255 bytes, of rows of one kind and of both, and by long prefix bytes.
fn prefix_edges(random: &mut Random) -> Vec<String> {
    let mut edges = Vec::new();
    for size in 253..=258 {
        edges.extend((0..4).map(|_| format!("7={}", prefix_of_size(random, size))));
    }
    for routes in [82, 83, 84, 85, 86] {
        edges.push(format!("7={}", prefix_with_rows(&format!("0:0:-:-:{routes}:0"), routes, 0)));
    }
    for borders in [61, 62, 63, 64, 65] {
        edges.push(format!("7={}", prefix_with_rows(&format!("0:0:-:-:0:{borders}"), 0, borders)));
    }
    // The rows of the second are what the first left.
    edges.push(format!("7={}", prefix_with_rows("0:0:-:-:1:2/0:0:-:1.1.1:2:1", 3, 3)));
    edges.push(format!("7={}", prefix_with_rows("0:0:-:-:84:0/0:0:-:-:0:0", 84, 0)));
    edges.extend(
        [31, 32, 33, 253, 300].map(|length| format!("7=0:255:{}:-:0:0|-|-", bytes_word(&random.bytes(length)))),
    );
    edges
}

/// Far more lists than there may be entries, all good, one that does not fit, or one that is too long.
fn many_lists() -> Vec<String> {
    let many = 4 * MOST_ENTRIES;
    let lists = |count: usize| vec!["513:1:-"; count];
    let with = |row: &str, place: usize| {
        let mut lists = lists(many + 6);
        lists[place] = row;
        format!("30={}", lists.join("/"))
    };
    let too_long = format!("513:1:{}", "00".repeat(LONGEST - 1));
    vec![
        format!("30={}", lists(many - 1).join("/")),
        format!("30={}", lists(many).join("/")),
        format!("30={}", lists(many + 1).join("/")),
        with("513:2:-", many + 5),
        with("513:1:00", many),
        with(&too_long, many + 2),
    ]
}

/// Payloads about the sizes, in bytes and in entries, and about both.
fn payload_edges(random: &mut Random) -> Vec<String> {
    let mut edges: Vec<String> = LEAST.iter().chain(MUCH).map(|field| field.to_string()).collect();
    edges.push("-".to_string());
    for entries in entry_edges() {
        edges.push(format!("30={}", vec!["10241:1:-"; entries].join("/")));
        edges.push([&LEAST[..16], &[&format!("30={}", vec!["0:0:-"; entries - 16].join("/"))]].concat().join(" "));
    }
    for bytes in byte_edges() {
        edges.push(format!("18={}", bytes_word(&random.bytes(bytes - 4))));
        edges.push(full_of_entries(random, bytes));
        edges.push(full_of_rows(random, bytes));
    }
    edges
}

/// So many bytes in as many entries as may be: a field without a rule, and lists.
fn full_of_entries(random: &mut Random, bytes: usize) -> String {
    let lists = MOST_ENTRIES - 1;
    let value = random.bytes(bytes - 4 * lists - 4);
    format!("0={} 30={}", bytes_word(&value), vec!["65535:511:-"; lists].join("/"))
}

/// So many bytes, of a full child table, addresses, and what is missing then.
fn full_of_rows(random: &mut Random, bytes: usize) -> String {
    let (addresses, children) = (16 * (bytes / 40), bytes / 6);
    let rest = bytes - (4 + addresses) - (4 + 3 * children) - 4;
    let [addresses, rest] = [addresses, rest].map(|length| bytes_word(&random.bytes(length)));
    format!("8={addresses} 16={} 17={rest}", many_children(children))
}

/// Records of all fields.
fn all_fields(random: &mut Random) -> Vec<String> {
    let any: Fields = TYPES.iter().map(|ty| (*ty, good_text(random, *ty))).collect();
    vec![LEAST.join(" "), MUCH.join(" "), words_of_fields(&any)]
}

/// Reasons for several refusals at once: of 12, 15, 10 and 11 each set, and some of these with 13.
fn orders() -> Vec<String> {
    let over_tables = format!("7={}|-|-", vec!["0:0:-:-:0:0"; 65].join("/"));
    let over_entries = format!("30={}", vec!["1:1:-"; MOST_ENTRIES + 1].join("/"));
    let too_long = format!("0={}", "00".repeat(LONGEST + 1));
    let mut orders = Vec::new();
    for set in 0..16 {
        let chosen = |bit: usize| set >> bit & 1 == 1;
        let cap = if chosen(0) { 1 } else { caps::MUCH };
        let tables = if chosen(1) { &over_tables } else { "7=-|-|-" };
        let misfit = if chosen(2) { "8=00" } else { "8=-" };
        let entries = if chosen(3) { &over_entries } else { "30=-" };
        let fields = format!("{tables} {misfit} {entries}");
        if set % 5 == 0 {
            orders.push(format!("{cap} {too_long} {fields}"));
        }
        orders.push(format!("{cap} {fields}"));
    }
    orders
}

/// Requests that are just outside of what can be read, and some just inside.
fn unreadable() -> Vec<String> {
    let mut requests: Vec<String> = ODD_REQUESTS.iter().map(|words| words.to_string()).collect();
    requests.extend(ODD_FIELDS.iter().map(|field| format!("99 {field}")));
    for ty in (0..=32).chain([254, 255, 256, 263]) {
        requests.push(format!("99 {ty}=-"));
        requests.push(format!("99 {ty}=0"));
    }
    requests
}

const ODD_REQUESTS: &[&str] = &[
    "99",
    "99 ",
    "- -",
    "-",
    "99 - -",
    "99 - 1=0",
    "99 1=0 -",
    "99 1=0 ",
    "99  1=0",
    "1=0",
    "1=0 99",
    "99 1=0 99",
    "0099 -",
    "18446744073709551615 1=1",
    "18446744073709551616 1=1",
    "99 2=000 1=0",
    "99 1=0 1=0",
    "99 1=0 01=0",
    "99 01=0 2=000 0000000000000000000030=-",
    "99 16=- 9=0,0,0,0,0,0,0,0,0",
];

#[rustfmt::skip]
const ODD_FIELDS: &[&str] = &[
    "", "=", "1", "1=", "=1", "1==1", "1=1=1", "-1=1", "+1=1", "1:1", "a=1", "0x1=1",
    "0=", "0=0", "0=00-", "0=--", "0=0G", "0=FF", "0=fF", "17=", "18=000", "23=", "8=",
    "1=-", "1=65536", "1=-1", "1=+1", "1=00065535", "1=1,", "1=1,1", "1= 1", "15=65536", "14=256", "14=0255", "14=-",
    "3=4294967295", "3=4294967296", "3=004294967295", "3=18446744073709551616", "3=1.0",
    "2=", "2=-", "2=00", "2=0000", "2=002", "2=111", "2=01-", "2=0,0,0",
    "4=-0,0,0,0,0,0,0,-,-", "4=-00001,0,0,0,0,0,0,-,-", "4=--1,0,0,0,0,0,0,-,-", "4=+1,0,0,0,0,0,0,-,-",
    "4=-,0,0,0,0,0,0,-,-", "4=,0,0,0,0,0,0,-,-", "4=128,0,0,0,0,0,0,-,-", "4=-128,0,0,0,0,0,0,-,-",
    "4=-129,0,0,0,0,0,0,-,-", "4=255,0,0,0,0,0,0,-,-", "4=127,0,0,0,0,0,0,-,-", "4=-000128,0,0,0,0,0,0,1,1",
    "4=18446744073709551617,0,0,0,0,0,0,1,1", "4=-18446744073709551617,0,0,0,0,0,0,1,1",
    "4=0,256,0,0,0,0,0,-,-", "4=0,0,0,0,0,0,256,-,-", "4=0,0,0,0,0,0,-,-,-", "4=0,0,0,0,0,0,0,65536,0",
    "4=0,0,0,0,0,0,0,0,256", "4=0,0,0,0,0,0,0,065535,0255", "4=0,0,0,0,0,0,0,-", "4=0,0,0,0,0,0,0,-,-,-",
    "4=0,0,0,0,0,0,0,,", "4=0,0,0,0,0,0,0,--,-", "4=-", "4=0:0:0:0:0:0:0:-:-",
    "5=0,-,-", "5=0,00000000000000,-", "5=0,000000000000000000,-", "5=0,0000000000000000", "5=0,0000000000000000,",
    "5=0,0000000000000000,-,-", "5=256,0000000000000000,-", "5=,0000000000000000,-", "5=-", "5=0,000000000000000A,-",
    "5=0,8000000000000000,0:0:0", "5=0,8000000000000000,0:0:0:0:0", "5=0,8000000000000000,256:0:0:0",
    "5=0,8000000000000000,0:256:0:0", "5=0,8000000000000000,0:0:0:256", "5=0,8000000000000000,0:0:0:0/",
    "5=0,8000000000000000,/0:0:0:0", "5=0,8000000000000000,000:003:03:0015", "5=0,8000000000000000,0:0:0:-",
    "5=0,8000000000000000,-/0:0:0:0", "5=0,8000000000000000,0,0,0,0",
    "6=0,0,0,0", "6=0,0,0,0,0,0", "6=4294967296,0,0,0,0", "6=0,256,0,0,0", "6=0,0,0,0,256", "6=0,0,0,0,", "6=-",
    "6=04294967295,0255,00,000,0000", "9=0,0,0,0,0,0,0,0", "9=0,0,0,0,0,0,0,0,0,0", "9=0,0,0,0,0,0,0,0,4294967296",
    "9=0,0,0,0,0,0,0,0,-", "9=00,00,00,00,00,00,00,00,04294967295", "9=-",
    "7=-", "7=-|-", "7=-|-|", "7=||", "7=-|-|-|-", "7=-|-|-/", "7=|-|-", "7=--|-|-", "7=-/-|-|-",
    "7=0:0:-:-:0|-|-", "7=0:0:-:-:0:0:0|-|-", "7=256:0:-:-:0:0|-|-", "7=0:256:-:-:0:0|-|-", "7=0:0::-:0:0|-|-",
    "7=0:8:F0:-:0:0|-|-", "7=0:0:-:-:-:0|-|-", "7=0:0:-:-:0:-|-|-", "7=0:0:-::0:0|-|-", "7=0:0:-:-:0:0/|-|-",
    "7=00:08:fd:-:000:0000|-|-", "7=0:0:-:-:18446744073709551615:0|-|-", "7=0:0:-:-:18446744073709551616:0|-|-",
    "7=0:0:-:-:0:18446744073709551615|-|-", "7=0:0:-:-:0:18446744073709551616|-|-", "7=0:0:-:-:0:0000000000000000000000|-|-",
    "7=0:0:-:0.0:0:0|-|-", "7=0:0:-:0.0.0.0:0:0|-|-", "7=0:0:-:2.0.0:0:0|-|-", "7=0:0:-:1.256.0:0:0|-|-",
    "7=0:0:-:1.0.256:0:0|-|-", "7=0:0:-:1.-.0:0:0|-|-", "7=0:0:-:01.015.0255:0:0|-|-", "7=0:0:-:1..0:0:0|-|-",
    "7=0:0:-:-.-.-:0:0|-|-", "7=0:0:-:--:0:0|-|-",
    "7=0:0:-:-:1:0|0:0|-", "7=0:0:-:-:1:0|0:0:0:0|-", "7=0:0:-:-:1:0|65536:0:0|-", "7=0:0:-:-:1:0|0:256:0|-",
    "7=0:0:-:-:1:0|0:0:2|-", "7=0:0:-:-:1:0|0:0:01|-", "7=0:0:-:-:1:0|0:0:|-", "7=0:0:-:-:1:0|0:0:-|-",
    "7=0:0:-:-:1:0|065535:03:1|-", "7=0:0:-:-:1:0|0:0:0/-|-",
    "7=0:0:-:-:0:1|-|0:0:0000000", "7=0:0:-:-:0:1|-|0:0:000000000", "7=0:0:-:-:0:1|-|0:0:00000002",
    "7=0:0:-:-:0:1|-|65536:0:00000000", "7=0:0:-:-:0:1|-|0:256:00000000", "7=0:0:-:-:0:1|-|0:0:-",
    "7=0:0:-:-:0:1|-|00065535:0003:10000001", "7=0:0:-:-:0:1|-|0:00000000",
    "16=", "16=0:0:0", "16=0:0:0:000:0", "16=256:0:0:000", "16=0:256:0:000", "16=0:0:65536:000", "16=0:0:0:00",
    "16=0:0:0:0000", "16=0:0:0:002", "16=0:0:0:-", "16=-/0:0:0:000", "16=0:0:0:000/", "16=0:0:0:000//0:0:0:000",
    "16=031:03:0511:000", "16=0,0,0,000", "16=0:0:-1:000",
    "30=", "30=0:0", "30=0:0:-:0", "30=65536:0:-", "30=0:65536:-", "30=0:0:", "30=0:0:0", "30=0:0:-/", "30=-/-",
    "30=010241:01:-", "30=0:0:FF", "30=0:0:--", "30=0:0:-/0:0:-",
];

//! Both sides in one program: `both WORK SIDE SIZE TURNS` does WORK that many times on an input of about SIZE bytes, by the
//! library (ours) or by the Rust (rust), and prints what it got; `both list` prints the names of the work. The side `base` is
//! what the library's `write` does besides writing.
mod addresses;
mod diagnostics;
mod inputs;
mod limit;
mod ours;
mod rust;
mod settings;
mod sums;
mod writing;

use inputs::Input;

type Work = fn(&Input, &mut [u8]) -> u64;

/// Each with the library's way and the Rust's.
const WORK: [(&str, Work, Work); 33] = [
    ("framing", ours::framing, rust::framing),
    ("rewrite", ours::rewrite, rust::rewrite),
    ("last_value", ours::last_value, rust::last_value),
    ("twelve", ours::twelve, rust::twelve),
    ("twelve_index", ours::twelve_by_index, rust::twelve),
    ("index", |i, out| ours::index(&i.settings.dataset, out), |i, out| rust::index(&i.settings.dataset, out)),
    ("hex_in", ours::hex_in, rust::hex_in),
    ("hex_out", ours::hex_out, rust::hex_out),
    ("addr_text", ours::addr_text, rust::addr_text),
    ("addr_in", ours::addr_in, rust::addr_in),
    ("utf8_ascii", ours::utf8_ascii, rust::utf8_ascii),
    ("utf8_mixed", ours::utf8_mixed, rust::utf8_mixed),
    ("run", ours::run, rust::run),
    ("fold", ours::fold, rust::fold),
    ("u8", |i, _| ours::payload(&i.diag.byte), |i, _| rust::payload(&i.diag.byte)),
    ("u16", |i, _| ours::payload(&i.diag.short), |i, _| rust::payload(&i.diag.short)),
    ("u32", |i, _| ours::payload(&i.diag.long), |i, _| rust::payload(&i.diag.long)),
    ("mode", |i, _| ours::mode(&i.diag.mode), |i, _| rust::mode(&i.diag.mode)),
    ("connectivity", |i, _| ours::payload(&i.diag.connectivity), |i, _| rust::payload(&i.diag.connectivity)),
    ("leader_data", |i, _| ours::payload(&i.diag.leader_data), |i, _| rust::payload(&i.diag.leader_data)),
    ("mac_counters", |i, _| ours::payload(&i.diag.mac_counters), |i, _| rust::payload(&i.diag.mac_counters)),
    ("route64_none", |i, _| ours::payload(&i.diag.route64_none), |i, _| rust::payload(&i.diag.route64_none)),
    ("route64_4_in_1", |i, _| ours::payload(&i.diag.route64_4_in_1), |i, _| rust::payload(&i.diag.route64_4_in_1)),
    ("route64_4_in_4", |i, _| ours::payload(&i.diag.route64_4_in_4), |i, _| rust::payload(&i.diag.route64_4_in_4)),
    ("route64_32", |i, _| ours::payload(&i.diag.route64_32), |i, _| rust::payload(&i.diag.route64_32)),
    ("route64", |i, _| ours::payload(&i.diag.route64), |i, _| rust::payload(&i.diag.route64)),
    ("network_data", |i, _| ours::network_data(&i.diag.network_data), |i, _| rust::network_data(&i.diag.network_data)),
    ("addresses", |i, _| ours::payload(&i.diag.addresses), |i, _| rust::payload(&i.diag.addresses)),
    ("child_table", |i, _| ours::payload(&i.diag.child_table), |i, _| rust::payload(&i.diag.child_table)),
    ("child_lists", |i, _| ours::payload(&i.diag.child_addresses), |i, _| rust::payload(&i.diag.child_addresses)),
    ("payload", |i, _| ours::payload(&i.diag.payload), |i, _| rust::payload(&i.diag.payload)),
    ("write", |i, out| ours::write(&i.writing.routes, &i.writing.parts, i.writing.n, out), |i, out| limit::write(&i.writing.record, out)),
    ("read_back", |i, _| ours::payload(&i.writing.payload), |i, _| rust::payload(&i.writing.payload)),
];

fn main() {
    let words: Vec<String> = std::env::args().skip(1).collect();
    if words.first().is_some_and(|word| word == "list") {
        WORK.iter().for_each(|(name, _, _)| println!("{name}"));
        return;
    }
    let [name, side, size, turns] = &words[..] else {
        panic!("both WORK SIDE SIZE TURNS");
    };
    let (_, ours, rust) = WORK.iter().find(|(known, _, _)| known == name).expect("work that is known");
    let base: Work = |i, out| ours::write(&i.writing.routes, &i.writing.parts, 0, out);
    let work = match side.as_str() {
        "ours" => *ours,
        "rust" => *rust,
        _ => base,
    };
    let input = Input::of(size.parse().expect("a size"));
    let mut out = vec![0; 2 * inputs::MOST];
    let mut sum = 0u64;
    for _ in 0..turns.parse::<usize>().expect("turns") {
        sum = sum.wrapping_mul(31).wrapping_add(work(std::hint::black_box(&input), &mut out));
    }
    println!("{sum} {}", out.iter().fold(0u64, |hash, &byte| hash.wrapping_mul(31).wrapping_add(u64::from(byte))));
}

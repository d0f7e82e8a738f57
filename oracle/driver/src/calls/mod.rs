//! The table of calls: PROBE.md's names, and for each how its words are read and who answers it.

use crate::answer::{Answer, Found};
use crate::sizes;
use crate::words::{Words, bytes_word};

mod addresses;
mod base16;
mod changes;
mod delay;
mod diagnostics;
mod edits;
mod framing;
mod index;
mod listing;
mod nested;
mod pairing;
mod parts;
mod policies;
mod queries;
mod records;
mod template;
mod write;

pub use addresses::GROUPS;
use diagnostics::Tables;
pub use index::{INDEX_BYTES, INDEX_MARK, count_and_place, slot_of, stored_index};
pub use listing::refusal_printed;
pub use parts::VERSIONS;
pub use records::record_words;

pub struct Call {
    pub name: &'static str,
    /// Reads the words after the name and answers; `None` where a word cannot be read.
    pub answer: fn(&mut Words) -> Option<Answer>,
}

#[rustfmt::skip]
pub const ALL: &[Call] = &[
    Call { name: "frame", answer: |w| Some(framing::frame(&w.bytes()?)) },
    Call { name: "one", answer: |w| Some(framing::one(&w.bytes()?)) },
    Call { name: "rewrite", answer: |w| Some(framing::rewrite(&w.bytes()?, w.number()?)) },
    Call { name: "entry", answer: |w| Some(framing::entry(w.number()?, w.bytes()?, w.number()?)) },
    Call { name: "header", answer: |w| Some(framing::header(w.number()?, w.number()?, w.number()?)) },
    Call { name: "raw", answer: |w| Some(framing::raw(w.number()?, &w.bytes()?)) },
    Call { name: "hexbytes", answer: |w| Some(base16::hexbytes(&w.bytes()?, w.number()?)) },
    Call { name: "hexframe", answer: |w| Some(base16::hexframe(&w.bytes()?)) },
    Call { name: "hexdata", answer: |w| Some(base16::hexdata(&w.bytes()?, w.number()?)) },
    Call { name: "tohex", answer: |w| Some(base16::tohex(&w.bytes()?, w.number()?)) },
    Call { name: "q.channel", answer: |w| Some(queries::query(&queries::CHANNEL, &w.bytes()?)) },
    Call { name: "q.panid", answer: |w| Some(queries::query(&queries::PAN_ID, &w.bytes()?)) },
    Call { name: "q.extpanid", answer: |w| Some(queries::query(&queries::EXTENDED_PAN_ID, &w.bytes()?)) },
    Call { name: "q.key", answer: |w| Some(queries::query(&queries::NETWORK_KEY, &w.bytes()?)) },
    Call { name: "q.mlprefix", answer: |w| Some(queries::query(&queries::MESH_LOCAL_PREFIX, &w.bytes()?)) },
    Call { name: "q.name", answer: |w| Some(queries::query(&queries::NETWORK_NAME, &w.bytes()?)) },
    Call { name: "q.pskc", answer: |w| Some(queries::query(&queries::PSKC, &w.bytes()?)) },
    Call { name: "q.policy", answer: |w| Some(queries::query(&queries::SECURITY_POLICY, &w.bytes()?)) },
    Call { name: "q.activets", answer: |w| Some(queries::query(&queries::ACTIVE_TIMESTAMP, &w.bytes()?)) },
    Call { name: "q.pendingts", answer: |w| Some(queries::query(&queries::PENDING_TIMESTAMP, &w.bytes()?)) },
    Call { name: "q.delay", answer: |w| Some(queries::query(&queries::DELAY_TIMER, &w.bytes()?)) },
    Call { name: "q.mask", answer: |w| Some(queries::query(&queries::CHANNEL_MASK, &w.bytes()?)) },
    Call { name: "v.channel", answer: |w| Some(queries::bare(&queries::CHANNEL, &w.bytes()?)) },
    Call { name: "v.panid", answer: |w| Some(queries::bare(&queries::PAN_ID, &w.bytes()?)) },
    Call { name: "v.extpanid", answer: |w| Some(queries::bare(&queries::EXTENDED_PAN_ID, &w.bytes()?)) },
    Call { name: "v.key", answer: |w| Some(queries::bare(&queries::NETWORK_KEY, &w.bytes()?)) },
    Call { name: "v.mlprefix", answer: |w| Some(queries::bare(&queries::MESH_LOCAL_PREFIX, &w.bytes()?)) },
    Call { name: "v.name", answer: |w| Some(queries::bare(&queries::NETWORK_NAME, &w.bytes()?)) },
    Call { name: "v.pskc", answer: |w| Some(queries::bare(&queries::PSKC, &w.bytes()?)) },
    Call { name: "v.policy", answer: |w| Some(queries::bare(&queries::SECURITY_POLICY, &w.bytes()?)) },
    Call { name: "v.activets", answer: |w| Some(queries::bare(&queries::ACTIVE_TIMESTAMP, &w.bytes()?)) },
    Call { name: "v.pendingts", answer: |w| Some(queries::bare(&queries::PENDING_TIMESTAMP, &w.bytes()?)) },
    Call { name: "v.delay", answer: |w| Some(queries::bare(&queries::DELAY_TIMER, &w.bytes()?)) },
    Call { name: "v.mask", answer: |w| Some(queries::bare(&queries::CHANNEL_MASK, &w.bytes()?)) },
    Call { name: "maskitem", answer: |w| Some(parts::maskitem(w.number()?, w.bytes()?, w.number()?)) },
    Call { name: "ts.build", answer: |w| Some(parts::ts_build(w.number()?, w.number()?, w.bit()?)) },
    Call { name: "ts.parts", answer: |w| parts::ts_parts(&w.bytes()?) },
    Call { name: "flags.get", answer: |w| Some(parts::flags_get(w.number()?)) },
    Call { name: "flags.set", answer: |w| Some(parts::flags_set(w.number()?, parts::version_of(w.word()?)?)) },
    Call { name: "flags.has", answer: |w| Some(parts::flags_has(w.number()?, w.number()?)) },
    Call { name: "channel.bytes", answer: |w| Some(parts::channel_bytes(w.number()?, w.number()?)) },
    Call { name: "policy.bytes", answer: |w| Some(parts::policy_bytes(w.number()?, w.number()?)) },
    Call { name: "set", answer: |w| Some(edits::set(w.number()?, w.bytes()?, &w.bytes()?, w.number()?)) },
    Call { name: "push", answer: |w| Some(edits::push(w.number()?, w.bytes()?, &w.bytes()?, w.number()?)) },
    Call { name: "remove", answer: |w| Some(edits::remove(w.number()?, &w.bytes()?, w.number()?)) },
    Call { name: "ops", answer: |w| Some(changes::ops(&w.bytes()?)) },
    Call { name: "run", answer: |w| Some(changes::run(&w.bytes()?, &w.bytes()?, w.number()?)) },
    Call { name: "fold", answer: |w| Some(changes::fold(&w.bytes()?, w.number()?)) },
    Call { name: "fold2", answer: |w| Some(changes::fold2(&w.bytes()?, &w.bytes()?, w.number()?)) },
    Call { name: "d.0", answer: |w| Some(diagnostics::bare(0, &w.bytes()?)) },
    Call { name: "d.1", answer: |w| Some(diagnostics::bare(1, &w.bytes()?)) },
    Call { name: "d.2", answer: |w| Some(diagnostics::bare(2, &w.bytes()?)) },
    Call { name: "d.3", answer: |w| Some(diagnostics::bare(3, &w.bytes()?)) },
    Call { name: "d.4", answer: |w| Some(diagnostics::bare(4, &w.bytes()?)) },
    Call { name: "d.5", answer: |w| Some(diagnostics::bare(5, &w.bytes()?)) },
    Call { name: "d.6", answer: |w| Some(diagnostics::bare(6, &w.bytes()?)) },
    Call { name: "d.8", answer: |w| Some(diagnostics::bare(8, &w.bytes()?)) },
    Call { name: "d.9", answer: |w| Some(diagnostics::bare(9, &w.bytes()?)) },
    Call { name: "d.14", answer: |w| Some(diagnostics::bare(14, &w.bytes()?)) },
    Call { name: "d.15", answer: |w| Some(diagnostics::bare(15, &w.bytes()?)) },
    Call { name: "d.16", answer: |w| Some(diagnostics::bare(16, &w.bytes()?)) },
    Call { name: "d.17", answer: |w| Some(diagnostics::bare(17, &w.bytes()?)) },
    Call { name: "d.18", answer: |w| Some(diagnostics::bare(18, &w.bytes()?)) },
    Call { name: "d.23", answer: |w| Some(diagnostics::bare(23, &w.bytes()?)) },
    Call { name: "d.30", answer: |w| Some(diagnostics::bare(30, &w.bytes()?)) },
    Call { name: "nd", answer: |w| Some(diagnostics::nd(&w.bytes()?, &tables(w)?)) },
    Call { name: "diag", answer: |w| Some(diagnostics::diag(&w.bytes()?, &tables(w)?)) },
    Call { name: "timeout", answer: |w| Some(diagnostics::timeout(w.number()?)) },
    Call { name: "pair", answer: |w| Some(pairing::pair(&w.bytes()?, w.number()?)) },
    Call { name: "write", answer: write::write },
    Call { name: "addrtext", answer: |w| addresses::addrtext(&w.bytes()?, w.number()?) },
    Call { name: "textaddr", answer: |w| Some(addresses::textaddr(&w.bytes()?, w.number()?)) },
    Call { name: "wdelay", answer: |w| Some(delay::wdelay(delay::FIVE_MINUTES, &w.bytes()?)) },
    Call { name: "due", answer: |w| Some(delay::due(delay::FIVE_MINUTES, &w.bytes()?, w.number()?)) },
    Call { name: "wdelay30", answer: |w| Some(delay::wdelay(delay::HALF_A_MINUTE, &w.bytes()?)) },
    Call { name: "due30", answer: |w| Some(delay::due(delay::HALF_A_MINUTE, &w.bytes()?, w.number()?)) },
    Call { name: "template", answer: |w| Some(template::template(w.number()?, &w.bytes()?, &w.bytes()?)) },
    Call { name: "flat", answer: |w| Some(listing::flat(&w.bytes()?, w.number()?)) },
    Call { name: "hexflat", answer: |w| Some(listing::hexflat(&w.bytes()?, w.number()?)) },
    Call { name: "prog", answer: |w| Some(listing::prog(&w.bytes()?)) },
    Call { name: "nested", answer: |w| Some(nested::nested(&w.bytes()?, w.number()?)) },
    Call { name: "index", answer: |w| Some(index::index(&w.bytes()?, w.number()?)) },
    Call { name: "ixload", answer: |w| Some(index::ixload(&w.bytes()?, &w.bytes()?)) },
    Call { name: "ixquery", answer: |w| Some(index::ixquery(w.number()?, &w.bytes()?, &w.bytes()?)) },
    Call { name: "ixlook", answer: |w| Some(index::ixlook(w.number()?, &w.bytes()?, &w.bytes()?)) },
    Call { name: "ixset", answer: |w| Some(index::ixset(w.number()?, w.bytes()?, &w.bytes()?, &w.bytes()?, w.number()?, w.number()?)) },
    Call { name: "ixremove", answer: |w| Some(index::ixremove(w.number()?, &w.bytes()?, &w.bytes()?, w.number()?, w.number()?)) },
    Call { name: "pol.v", answer: |w| Some(policies::bare(policies::mode_of(w.number()?)?, &w.bytes()?)) },
    Call { name: "pol.q", answer: |w| Some(policies::query(policies::mode_of(w.number()?)?, &w.bytes()?)) },
    Call { name: "pol.thr", answer: |w| Some(policies::threshold(policies::mode_of(w.number()?)?, &w.bytes()?)) },
    Call { name: "pol.set", answer: |w| Some(policies::set_threshold(policies::mode_of(w.number()?)?, &w.bytes()?, parts::version_of(w.word()?)?)) },
    Call { name: "pol.back", answer: |w| Some(policies::write_back(policies::mode_of(w.number()?)?, &w.bytes()?, w.number()?)) },
];

/// Calls that the Rust does not have: what they answer is document 01's or 02's, over what the Rust, or its standard
/// library, reads.
pub const NOT_IN_THE_RUST: &[&str] = &[
    "ops", "fold", "fold2", "pair", "write", "addrtext", "textaddr", "wdelay", "due", "wdelay30", "due30", "template",
    "flat", "hexflat", "prog", "nested", "index", "ixload", "ixquery", "ixlook", "ixset", "ixremove", "pol.v", "pol.q",
    "pol.thr", "pol.set", "pol.back",
];

fn tables(words: &mut Words) -> Option<Tables> {
    Some(Tables { prefixes: words.number()?, has_routes: words.number()?, border_routers: words.number()? })
}

fn value(words: impl Into<String>) -> Answer {
    Ok(Found::Value(words.into()))
}

/// What a call writes to a lent output: refusal 11, or the bytes.
fn lent(written: &[u8], cap: u64) -> Answer {
    sizes::test_room(written.len(), cap)?;
    value(bytes_word(written))
}

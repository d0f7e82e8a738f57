//! The request maker: an endless sequence of requests for each seed, any part of which can be made by itself.

use meshcop::dataset::{
    TLV_ACTIVE_TIMESTAMP, TLV_CHANNEL, TLV_CHANNEL_MASK, TLV_DELAY_TIMER, TLV_EXTENDED_PAN_ID, TLV_MESH_LOCAL_PREFIX,
    TLV_NETWORK_KEY, TLV_NETWORK_NAME, TLV_PAN_ID, TLV_PENDING_TIMESTAMP, TLV_PSKC, TLV_SECURITY_POLICY,
};

use crate::random::Random;
use crate::words::bytes_word;

mod about;
mod address_texts;
mod addresses;
mod base16;
mod caps;
mod changes;
mod damage;
mod datasets;
mod delay;
mod diag_values;
mod diagnostics;
mod edits;
mod field_faults;
mod fields;
mod framing;
mod index;
mod index_edges;
mod indexes;
mod listing;
mod lists;
mod masks;
mod names;
mod nested;
mod nested_edges;
mod network;
mod pairing;
mod parts;
mod payloads;
mod policies;
mod queries;
mod short;
mod template;
mod texts;
mod typed;
mod write;
mod write_edges;
mod write_short;

use short::{Deck, Family};

/// How the requests of one call are made. Words are those after the call's name.
pub struct Maker {
    pub call: &'static str,
    /// How often the call is drawn, against the others.
    pub share: usize,
    /// One random request.
    pub random: fn(&mut Random) -> String,
    /// Requests around each boundary.
    pub edges: fn(&mut Random) -> Vec<String>,
    /// Short inputs, all of them.
    pub short: &'static [Family],
}

const MAKERS: &[Maker] = &[
    framing::FRAME,
    framing::ONE,
    framing::REWRITE,
    framing::ENTRY,
    framing::HEADER,
    framing::RAW,
    base16::HEXBYTES,
    base16::HEXFRAME,
    base16::HEXDATA,
    base16::TOHEX,
    queries::query::<TLV_CHANNEL>("q.channel"),
    queries::query::<TLV_PAN_ID>("q.panid"),
    queries::query::<TLV_EXTENDED_PAN_ID>("q.extpanid"),
    queries::query::<TLV_NETWORK_KEY>("q.key"),
    queries::query::<TLV_MESH_LOCAL_PREFIX>("q.mlprefix"),
    queries::query::<TLV_NETWORK_NAME>("q.name"),
    queries::query::<TLV_PSKC>("q.pskc"),
    queries::query::<TLV_SECURITY_POLICY>("q.policy"),
    queries::query::<TLV_ACTIVE_TIMESTAMP>("q.activets"),
    queries::query::<TLV_PENDING_TIMESTAMP>("q.pendingts"),
    queries::query::<TLV_DELAY_TIMER>("q.delay"),
    queries::query::<TLV_CHANNEL_MASK>("q.mask"),
    queries::bare::<TLV_CHANNEL>("v.channel"),
    queries::bare::<TLV_PAN_ID>("v.panid"),
    queries::bare::<TLV_EXTENDED_PAN_ID>("v.extpanid"),
    queries::bare::<TLV_NETWORK_KEY>("v.key"),
    queries::bare::<TLV_MESH_LOCAL_PREFIX>("v.mlprefix"),
    queries::V_NAME,
    queries::V_PSKC,
    queries::bare::<TLV_SECURITY_POLICY>("v.policy"),
    queries::bare::<TLV_ACTIVE_TIMESTAMP>("v.activets"),
    queries::bare::<TLV_PENDING_TIMESTAMP>("v.pendingts"),
    queries::bare::<TLV_DELAY_TIMER>("v.delay"),
    queries::V_MASK,
    parts::MASKITEM,
    parts::TS_BUILD,
    parts::TS_PARTS,
    parts::FLAGS_GET,
    parts::FLAGS_SET,
    parts::FLAGS_HAS,
    parts::CHANNEL_BYTES,
    parts::POLICY_BYTES,
    edits::SET,
    edits::PUSH,
    edits::REMOVE,
    changes::OPS,
    changes::RUN,
    changes::FOLD,
    changes::FOLD2,
    diagnostics::bare::<0>("d.0"),
    diagnostics::bare::<1>("d.1"),
    diagnostics::bare::<2>("d.2"),
    diagnostics::bare::<3>("d.3"),
    diagnostics::bare::<4>("d.4"),
    diagnostics::ROUTE64,
    diagnostics::bare::<6>("d.6"),
    diagnostics::bare::<8>("d.8"),
    diagnostics::bare::<9>("d.9"),
    diagnostics::bare::<14>("d.14"),
    diagnostics::bare::<15>("d.15"),
    diagnostics::CHILDREN,
    diagnostics::bare::<17>("d.17"),
    diagnostics::bare::<18>("d.18"),
    diagnostics::bare::<23>("d.23"),
    diagnostics::ADDRESSES,
    diagnostics::ND,
    diagnostics::DIAG,
    diagnostics::TIMEOUT,
    pairing::PAIR,
    write::WRITE,
    addresses::ADDRTEXT,
    addresses::TEXTADDR,
    delay::wdelay("wdelay"),
    delay::due("due"),
    delay::wdelay("wdelay30"),
    delay::due("due30"),
    template::TEMPLATE,
    listing::FLAT,
    listing::HEXFLAT,
    listing::PROG,
    nested::NESTED,
    index::INDEX,
    index::IXLOAD,
    index::IXQUERY,
    index::IXLOOK,
    index::IXSET,
    index::IXREMOVE,
    policies::POL_V,
    policies::POL_Q,
    policies::POL_THR,
    policies::POL_SET,
    policies::POL_BACK,
];

/// Where a request comes from.
#[derive(Clone, Copy, PartialEq)]
enum Source {
    Short,
    Edge,
    Random,
}

/// The sources of eight cases in a row. Short inputs and edges come once each; when they are used up, random ones follow.
#[rustfmt::skip]
const PATTERN: [Source; 8] = [
    Source::Short, Source::Edge, Source::Short, Source::Random,
    Source::Short, Source::Edge, Source::Short, Source::Random,
];

/// One random request in so many is spoilt, most often into one that cannot be read.
const SPOILT_ONCE_IN: usize = 80;

/// Families up to this size come first, so that a short run sees all of them.
const SMALL_FAMILY: usize = 15_000;

/// All requests of a seed, by case number.
pub struct Sequence {
    seed: u64,
    makers: Vec<&'static Maker>,
    small_families: Deck,
    large_families: Deck,
    edges: Vec<String>,
}

impl Sequence {
    /// The requests of the named calls, or of all if none is named; an error is the name of an unknown one.
    pub fn new<'a>(seed: u64, calls: &[&'a str]) -> Result<Self, &'a str> {
        if let Some(unknown) = calls.iter().find(|call| MAKERS.iter().all(|maker| maker.call != **call)) {
            return Err(unknown);
        }
        let wanted = |maker: &&Maker| calls.is_empty() || calls.contains(&maker.call);
        let makers: Vec<_> = MAKERS.iter().filter(wanted).collect();
        Ok(Self {
            seed,
            small_families: Deck::of(&makers, |family| family.size <= SMALL_FAMILY),
            large_families: Deck::of(&makers, |family| family.size > SMALL_FAMILY),
            edges: all_edges(seed, &makers),
            makers,
        })
    }

    /// The requests around the boundaries; they do not depend on a case number.
    pub fn edges(&self) -> &[String] {
        &self.edges
    }

    /// The requests of so many cases, from the first of them on.
    pub fn requests(&self, first: u64, cases: u64) -> impl Iterator<Item = String> {
        (first..first.saturating_add(cases)).map(|case| self.request(case))
    }

    fn request(&self, case: u64) -> String {
        let round = (case / PATTERN.len() as u64) as usize;
        let place = (case % PATTERN.len() as u64) as usize;
        let source = PATTERN[place];
        let turns_in = |cases: &[Source]| cases.iter().filter(|other| **other == source).count();
        let turn = round * turns_in(&PATTERN) + turns_in(&PATTERN[..place]);
        let listed = match source {
            Source::Short => self.short(turn),
            Source::Edge => self.edge(turn),
            Source::Random => None,
        };
        listed.unwrap_or_else(|| self.random(case))
    }

    fn short(&self, turn: usize) -> Option<String> {
        match turn.checked_sub(self.small_families.size()) {
            None => self.small_families.request(turn),
            Some(later) => self.large_families.request(later),
        }
    }

    fn edge(&self, turn: usize) -> Option<String> {
        let place = short::spread(turn, self.edges.len())?;
        self.edges.get(place).cloned()
    }

    fn random(&self, case: u64) -> String {
        let mut random = Random::of_case(self.seed, case);
        let maker = self.draw(&mut random);
        let request = request_of(maker.call, &(maker.random)(&mut random));
        if random.once_in(SPOILT_ONCE_IN) { damage::spoil(&mut random, &request) } else { request }
    }

    fn draw(&self, random: &mut Random) -> &'static Maker {
        let mut drawn = random.below(self.makers.iter().map(|maker| maker.share).sum());
        for maker in &self.makers {
            match drawn.checked_sub(maker.share) {
                None => return maker,
                Some(rest) => drawn = rest,
            }
        }
        unreachable!("drawn below the sum of the shares")
    }
}

fn all_edges(seed: u64, makers: &[&Maker]) -> Vec<String> {
    let mut edges = Vec::new();
    for maker in makers {
        let mut random = Random::of_case(seed, u64::MAX);
        edges.extend((maker.edges)(&mut random).iter().map(|words| request_of(maker.call, words)));
        edges.extend(damage::wrong_counts(maker.call, &(maker.random)(&mut random)));
    }
    edges
}

fn request_of(call: &str, words: &str) -> String {
    format!("{call} {words}")
}

/// `v.name` for so many names of three bytes, from the first of them on, in order, as far as there are any.
pub fn three_byte_names(first: u64, cases: u64) -> impl Iterator<Item = String> {
    let end = first.saturating_add(cases).min(names::THREE_BYTES);
    (first..end).map(|number| request_of("v.name", &bytes_word(&names::three_bytes(number))))
}

//! Requests on the index beside a dataset around each boundary.

use super::caps::{with_each_edge_cap, with_each_edge_of_both, with_edge_caps_in_turn, with_edges_of_both_in_turn};
use super::changes::two_words;
use super::datasets::{HEADER_EDGES, NO_SUCH_TYPE, dataset_edges, entry, whole_dataset};
use super::edits::{SHAPED_TYPE, set_words, some_set_edges};
use super::framing::{last_type, words_of};
use super::index::type_and_dataset;
use super::indexes::{long_index, misframed, other_slots, own_index, with_slot};
use super::typed::bytes_ending_in;
use crate::calls::INDEX_BYTES;
use crate::random::Random;
use crate::sizes::{MOST_BYTES, MOST_ENTRIES};
use crate::words::bytes_word;

/// A type, a dataset, and an index beside it.
type Beside = (u8, Vec<u8>, Vec<u8>);

pub fn index_edges(random: &mut Random) -> Vec<String> {
    let mut edges = with_edge_caps_in_turn("index", &words_of(&dataset_edges(random)));
    let longest = whole_dataset(random, MOST_ENTRIES, MOST_BYTES);
    for dataset in [vec![], vec![3, 255, 0, 0, 7, 0, 3, 0], vec![7], longest] {
        let words = bytes_word(&dataset);
        edges.extend(with_each_edge_cap("index", &words));
        edges.extend([0, 2_000, u64::MAX].map(|cap| format!("{words} {cap}")));
    }
    edges
}

pub fn ixload_edges(random: &mut Random) -> Vec<String> {
    let mut edges: Vec<String> =
        all_beside(random).iter().map(|(_, dataset, index)| two_words(dataset, index)).collect();
    for length in [MOST_BYTES, MOST_BYTES + 1, INDEX_BYTES + 65_536] {
        edges.push(two_words(&[3, 0], &long_index(&own_index(&[3, 0]), length)));
    }
    edges
}

pub fn ixquery_edges(random: &mut Random) -> Vec<String> {
    all_beside(random).iter().map(typed_words).collect()
}

pub fn ixlook_edges(random: &mut Random) -> Vec<String> {
    let looked = [at_each_place(), cut_at_each_length(), by_each_count(), of_each_size(random)];
    all_beside(random).iter().chain(&looked.concat()).map(typed_words).collect()
}

fn typed_words((ty, dataset, index): &Beside) -> String {
    format!("{ty} {}", two_words(dataset, index))
}

pub fn ixset_edges(random: &mut Random) -> Vec<String> {
    let set = |(ty, dataset, index): &Beside| format!("{} {}", set_words(*ty, b"AB", dataset), bytes_word(index));
    let mut all_words: Vec<String> = all_beside(random).iter().map(set).collect();
    all_words.extend(some_set_edges(random).iter().map(|words| with_own(words)));
    let mut edges = with_edges_of_both_in_turn("ixset", &all_words);
    for words in ["3 - -", "3 44 03ff0001410700", "7 - 03ff0001410700"] {
        edges.extend(with_each_edge_of_both("ixset", &with_own(words)));
    }
    edges.extend(faults_at_once(random));
    edges
}

pub fn ixremove_edges(random: &mut Random) -> Vec<String> {
    let mut edges = with_edges_of_both_in_turn("ixremove", &ixquery_edges(random));
    for words in ["3 -", "3 03ff0001410700", "7 0700", "9 03ff0001410700"] {
        edges.extend(with_each_edge_of_both("ixremove", &with_own(words)));
    }
    edges
}

/// The words, which end with a dataset, and after them its own index.
fn with_own(words: &str) -> String {
    format!("{words} {}", bytes_word(&own_index(&type_and_dataset(words).1)))
}

/// Datasets at each boundary with their own index, faulty ones with others too, and small ones with all that could be
/// taken for theirs.
fn all_beside(random: &mut Random) -> Vec<Beside> {
    let mut all = Vec::new();
    for (number, dataset) in dataset_edges(random).into_iter().enumerate() {
        let ty = if number % 4 == 0 { NO_SUCH_TYPE } else { last_type(&dataset) };
        let index = own_index(&dataset);
        all.push((ty, dataset, index));
    }
    all.extend(faulty_with_any(random));
    all.extend(small_with_any_slots(random));
    all.extend(with_misframed());
    all.extend(with_index_of_edited());
    all
}

/// Each fault of a dataset, with its index as far as there is one, with a mark alone, and with nothing.
fn faulty_with_any(random: &mut Random) -> Vec<Beside> {
    let ty = SHAPED_TYPE;
    let too_many = entry(ty, b"", false).repeat(MOST_ENTRIES + 1);
    let too_many_and_cut = [&too_many[..], &[ty]].concat();
    let mut all = Vec::new();
    for dataset in [vec![ty], vec![ty, 0, ty, 1], too_many, too_many_and_cut, random.bytes(MOST_BYTES + 1)] {
        for length in [INDEX_BYTES, INDEX_BYTES - 1, 2, 0] {
            all.push((ty, dataset.clone(), own_index(&dataset)[..length].to_vec()));
        }
    }
    all
}

/// Datasets with the type not at all, once, more often, by either header, at a place of two bytes, and as often as may be;
/// and with each type once.
fn small_ones(random: &mut Random) -> Vec<Vec<u8>> {
    let ty = SHAPED_TYPE;
    vec![
        vec![],
        entry(NO_SUCH_TYPE, b"A", true),
        entry(ty, b"A", false),
        [entry(7, b"", false), entry(ty, b"A", true), entry(0, b"B", false)].concat(),
        [entry(ty, b"A", true), entry(7, b"", false), entry(ty, b"", false), entry(ty, b"BC", false)].concat(),
        bytes_ending_in(random, ty, 700),
        entry(ty, b"", false).repeat(MOST_ENTRIES),
        (0..=u8::MAX).flat_map(|ty| [ty, 0]).collect(),
    ]
}

/// Their own index, and such with another count or place for the type that is asked for or, at times, for another type.
fn small_with_any_slots(random: &mut Random) -> Vec<Beside> {
    let ty = SHAPED_TYPE;
    let mut all = Vec::new();
    for dataset in small_ones(random) {
        all.push((ty, dataset.clone(), own_index(&dataset)));
        for (number, slot) in other_slots(ty, &dataset).into_iter().enumerate() {
            let asked = if number % 5 == 4 { NO_SUCH_TYPE } else { ty };
            all.push((asked, dataset.clone(), with_slot(ty, slot, own_index(&dataset))));
        }
    }
    for ty in [0, u8::MAX] {
        for slot in [[1, 0], [0, 1], [2, 2]] {
            all.push((ty, vec![ty, 0], with_slot(ty, slot, own_index(&[ty, 0]))));
        }
    }
    all
}

fn with_misframed() -> Vec<Beside> {
    let dataset = entry(SHAPED_TYPE, b"A", false);
    let own = own_index(&dataset);
    let mut indexes = misframed(&own);
    indexes.push(long_index(&own, 20_000));
    indexes.push(vec![0; INDEX_BYTES]);
    indexes.into_iter().map(|index| (SHAPED_TYPE, dataset.clone(), index)).collect()
}

/// A dataset before an edit with the index after it, and the other way round: where the type was set, added, removed, and
/// where nothing but a header was written afresh.
fn with_index_of_edited() -> Vec<Beside> {
    let [first, other, again] = [entry(3, b"A", true), entry(7, b"", false), entry(3, b"B", false)];
    let before = [&first[..], &other].concat();
    let all_after = [
        [&other[..], &again].concat(),
        [&first[..], &other, &again].concat(),
        other.clone(),
        [entry(3, b"A", false), other].concat(),
    ];
    let mut all = Vec::new();
    for after in all_after {
        all.push((3, before.clone(), own_index(&after)));
        all.push((3, after, own_index(&before)));
    }
    all
}

/// Each fault of a dataset, or none, with an edit that is refused with 13, with 10, or not, and with the dataset's own
/// index, another, and none; and no room for what comes out.
fn faults_at_once(random: &mut Random) -> Vec<String> {
    let (huge, long) = (random.bytes(65_536), random.bytes(MOST_BYTES));
    let full = vec![0; 2 * MOST_ENTRIES];
    let too_many = vec![0; 2 * MOST_ENTRIES + 2];
    let sets: [(&[u8], &[u8]); 9] = [
        (b"", &[7, 0]),
        (b"", &full),
        (&long, &[7, 0]),
        (&huge, &[7, 0]),
        (&huge, &full),
        (b"", &[7]),
        (&huge, &[7]),
        (b"", &too_many),
        (&long, &too_many),
    ];
    let mut edges = Vec::new();
    for (value, dataset) in sets {
        let own = own_index(dataset);
        for index in [own.clone(), with_slot(3, [0, 1], own), vec![]] {
            edges.push(format!("{} {} 0 0", set_words(3, value, dataset), bytes_word(&index)));
        }
    }
    edges
}

/// Types that are there and such that are not, at each place of a dataset: of entries by either header, inside of values, where
/// entries can be framed as well, at the end, and past it.
fn at_each_place() -> Vec<Beside> {
    let dataset = [3, 255, 0, 3, 3, 1, 65, 7, 3, 3, 0, 7, 3, 2, 66, 67];
    let mut all = Vec::new();
    for ty in [0, 3, 7, 66] {
        for place in 0..=dataset.len() + 1 {
            all.push((ty, dataset.to_vec(), with_slot(ty, [1, place as u16], own_index(&dataset))));
        }
    }
    all
}

/// Before, in and after the entry that is asked for, by either header.
fn cut_at_each_length() -> Vec<Beside> {
    let mut all = Vec::new();
    for long_header in [false, true] {
        let whole = [entry(7, b"", false), entry(3, b"ABC", long_header), vec![9]].concat();
        let index = own_index(&whole);
        all.extend((0..=whole.len()).map(|length| (3, whole[..length].to_vec(), index.clone())));
    }
    all
}

/// A place that is right, by each count: none is found by 0, and the entry by any other.
fn by_each_count() -> Vec<Beside> {
    let dataset = [entry(7, b"A", false), entry(3, b"B", false)].concat();
    let with_count = |count| (3, dataset.clone(), with_slot(3, [count, 3], own_index(&dataset)));
    [0, 1, 2, 255, 256, 257, 0x8000, 0xffff].map(with_count).to_vec()
}

/// Values at each length where a header changes; the most bytes and one more, with their own index and with none; and more
/// entries than may be, and many more.
fn of_each_size(random: &mut Random) -> Vec<Beside> {
    let ty = SHAPED_TYPE;
    let mut datasets: Vec<Vec<u8>> =
        HEADER_EDGES.map(|length| entry(ty, &random.bytes(length), length == 254)).collect();
    datasets.extend([MOST_BYTES, MOST_BYTES + 1].map(|bytes| bytes_ending_in(random, ty, bytes)));
    datasets.push(entry(ty, &random.bytes(MOST_BYTES - 4), true));
    datasets.extend([MOST_ENTRIES + 1, 300].map(|entries| entry(ty, b"", false).repeat(entries)));
    let mut all: Vec<Beside> = datasets.iter().map(|dataset| (ty, dataset.clone(), own_index(dataset))).collect();
    all.extend(datasets.into_iter().map(|dataset| (ty, dataset, vec![])));
    all
}

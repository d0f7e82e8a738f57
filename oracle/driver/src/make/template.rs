//! Requests on the house template: `template`.

use super::Maker;
use super::changes::two_words;
use super::datasets::{NO_SUCH_TYPE, dataset_edges, entry};
use super::edits::{FEW_SHAPED, SHAPED, SHAPED_TYPE, shaped, some_type};
use super::framing::last_type;
use super::short::{Family, string, strings};
use super::typed::{bytes_ending_in, entries_ending_in, typed_dataset};
use crate::random::Random;
use crate::sizes::{MOST_BYTES, MOST_ENTRIES, OLDER_BYTES, OLDER_ENTRIES};

/// The lengths where framing forks, in as few bytes as show it, and all inputs of up to four of them: a long header has room.
const FORKS: &[u8] = &[0x00, 0x01, 0xff];
const FORKED: usize = strings(FORKS.len(), 0, 4);

/// Beside a few in the site, the templates that are not beside them already.
const MORE_SHAPED: usize = SHAPED - FEW_SHAPED;

fn forked(number: usize) -> Vec<u8> {
    string(FORKS, 0, number)
}

pub const TEMPLATE: Maker = Maker {
    call: "template",
    share: 20,
    random: random_template,
    edges: |random| [edges_of_one(random), edges_of_both(random)].concat(),
    short: &[
        Family {
            size: FORKED * FORKED,
            words: |number| template_words(0, &forked(number / FORKED), &forked(number % FORKED)),
        },
        Family {
            size: SHAPED * FEW_SHAPED,
            words: |number| template_words(SHAPED_TYPE, &shaped(number / FEW_SHAPED), &shaped(number % FEW_SHAPED)),
        },
        Family {
            size: FEW_SHAPED * MORE_SHAPED,
            words: |number| {
                let template = shaped(FEW_SHAPED + number % MORE_SHAPED);
                template_words(SHAPED_TYPE, &shaped(number / MORE_SHAPED), &template)
            },
        },
        Family { size: 4 * 256, words: each_type },
    ],
};

fn template_words(ty: u8, site: &[u8], template: &[u8]) -> String {
    format!("{ty} {}", two_words(site, template))
}

/// Each type, which the site's dataset, the template, both or neither has.
fn each_type(number: usize) -> String {
    let ty = (number / 4) as u8;
    let with_or_without = |with: bool, value| entry(if with { ty } else { 255 - ty }, value, false);
    let site = with_or_without(number % 2 == 0, b"A");
    let template = with_or_without(number / 2 % 2 == 0, b"B");
    template_words(ty, &site, &template)
}

fn random_template(random: &mut Random) -> String {
    let ty = some_type(random);
    let site = either_dataset(random, ty);
    let template = if random.once_in(16) { site.clone() } else { either_dataset(random, ty) };
    template_words(ty, &site, &template)
}

/// Made for the type, or for another so that it most often lacks it; at times the type's last value is empty.
fn either_dataset(random: &mut Random, ty: u8) -> Vec<u8> {
    match random.below(10) {
        0..=3 => typed_dataset(random, ty),
        4 => [typed_dataset(random, ty), entry(ty, b"", random.once_in(6))].concat(),
        _ => {
            let other = some_type(random);
            typed_dataset(random, other)
        }
    }
}

/// Each edge of a dataset as the site's and as the template, beside a dataset that has the type or, every third, has not.
fn edges_of_one(random: &mut Random) -> Vec<String> {
    let mut edges = Vec::new();
    for (number, dataset) in dataset_edges(random).iter().enumerate() {
        let ty = if number % 4 == 0 { NO_SUCH_TYPE } else { last_type(dataset) };
        let other = entry(if number % 3 == 0 { NO_SUCH_TYPE + 1 } else { ty }, b"A", true);
        edges.push(template_words(ty, dataset, &other));
        edges.push(template_words(ty, &other, dataset));
    }
    edges
}

/// Datasets with and without the type, faulty ones, and such at the sizes, each as the site's with each as the template.
fn edges_of_both(random: &mut Random) -> Vec<String> {
    let ty = SHAPED_TYPE;
    let (full, empty) = (entry(ty, b"A", false), entry(ty, b"", false));
    let too_many = entries_ending_in(random, ty, MOST_ENTRIES + 1);
    let datasets = [
        vec![],
        entry(NO_SUCH_TYPE, b"A", false),
        full.clone(),
        empty.clone(),
        [&full[..], &empty].concat(),
        [&empty[..], &full].concat(),
        vec![ty],
        [&full[..], &[ty]].concat(),
        entries_ending_in(random, ty, MOST_ENTRIES),
        [&too_many[..], &[ty]].concat(),
        too_many,
        entries_ending_in(random, ty, OLDER_ENTRIES + 1),
        entry(ty, &random.bytes(OLDER_BYTES - 3), true),
        bytes_ending_in(random, ty, MOST_BYTES),
        bytes_ending_in(random, ty, MOST_BYTES + 1),
    ];
    let mut edges = Vec::new();
    for site in &datasets {
        for template in &datasets {
            edges.push(template_words(ty, site, template));
        }
    }
    edges
}

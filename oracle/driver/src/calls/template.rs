//! The house template: a value by the Rust's query of the site's dataset, or of the template where that has none. `template`.

use super::framing::raw_words;
use super::value;
use crate::answer::{Answer, Found, Refusal};

/// The template is read, and refused, even where the site supplies the value.
pub fn template(ty: u8, site: &[u8], template: &[u8]) -> Answer {
    let of_site = raw_words(ty, site)?;
    let of_template = raw_words(ty, template).map_err(Refusal::of_second)?;
    match (of_site, of_template) {
        (Some(words), _) => value(format!("0 {words}")),
        (None, Some(words)) => value(format!("1 {words}")),
        (None, None) => Ok(Found::Absent),
    }
}

//! Addresses as text, which the Rust does not have: its standard library reads and writes them. `addrtext`, `textaddr`.
//!
//! `Ipv6Addr` knows RFC 4291's form 3 as well, which ends in an IPv4 address with dots, and which document 02 leaves out.
//! A dot tells it. On all else `Ipv6Addr` and the driver's own forms are of one mind, or this ends the run.

use std::net::Ipv6Addr;

use super::lent;
use crate::answer::{Answer, Refusal};
use crate::words::bytes_word;

mod forms;

pub use forms::GROUPS;

/// `None` unless there are 16 bytes, since the call takes no others.
pub fn addrtext(bytes: &[u8], cap: u64) -> Option<Answer> {
    let octets: [u8; 16] = bytes.try_into().ok()?;
    Some(lent(text_of(octets.into()).as_bytes(), cap))
}

/// Refusal 16, of a text of any length, then 11.
pub fn textaddr(text: &[u8], cap: u64) -> Answer {
    let address = address_of(text).ok_or(Refusal::at(16, 0))?;
    lent(&address.octets(), cap)
}

/// As `Ipv6Addr` has it, but never with dots. It must read back as the address.
fn text_of(address: Ipv6Addr) -> String {
    let text = forms::write(address.segments());
    assert_eq!(without_dots(address), text, "the standard library and RFC 5952 on one address");
    assert_eq!(address_of(text.as_bytes()), Some(address), "the address that {text} was written for");
    text
}

/// What `Ipv6Addr` writes. Where that has dots, of an IPv4-mapped address, what it writes with fffe in the place of ffff, and ffff
/// put back.
fn without_dots(address: Ipv6Addr) -> String {
    let [.., mapped, high, low] = address.segments();
    let text = address.to_string();
    if !has_dot(text.as_bytes()) {
        return text;
    }
    assert_eq!(mapped, 0xffff, "the mark of an IPv4-mapped address in {text}");
    Ipv6Addr::new(0, 0, 0, 0, 0, 0xfffe, high, low).to_string().replacen("fffe", "ffff", 1)
}

/// As `Ipv6Addr` has it, but of no text with dots, nor of one that is not UTF-8, which it does not take.
fn address_of(text: &[u8]) -> Option<Ipv6Addr> {
    let by_forms = forms::read(text).map(Ipv6Addr::from);
    let by_library = std::str::from_utf8(text).ok().filter(|_| !has_dot(text)).and_then(|text| text.parse().ok());
    assert_eq!(by_library, by_forms, "the standard library and forms 1 and 2 on the text {}", bytes_word(text));
    by_library
}

fn has_dot(text: &[u8]) -> bool {
    text.contains(&b'.')
}

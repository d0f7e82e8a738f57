//! IPv6 addresses of four kinds, and their texts. None is one that the Rust writes with dots.
use std::net::Ipv6Addr;

pub struct Addresses {
    pub bytes: Vec<[u8; 16]>,
    pub texts: Vec<Vec<u8>>,
}

/// A group that is not zero.
fn group(k: usize, place: usize) -> u16 {
    ((k * 8 + place) * 40503 % 65535 + 1) as u16
}

/// A group of one byte: one digit or two.
fn short(k: usize, place: usize) -> u16 {
    group(k, place) % 255 + 1
}

/// No group is zero.
fn full(k: usize) -> [u16; 8] {
    std::array::from_fn(|place| group(k, place))
}

/// A device by its router: three groups of zeros in the middle, or two.
fn routed(k: usize) -> [u16; 8] {
    let subnet = if k % 2 == 0 { 0 } else { short(k, 2) };
    [0xfd00, 0x0db8, subnet, 0, 0, 0x00ff, 0xfe00, group(k, 7)]
}

/// Link-local.
fn local(k: usize) -> [u16; 8] {
    [0xfe80, 0, 0, 0, group(k, 4), group(k, 5), group(k, 6), group(k, 7)]
}

/// Short groups, and one that is zero.
fn brief(k: usize) -> [u16; 8] {
    std::array::from_fn(|place| if place == 3 { 0 } else { short(k, place) })
}

fn groups(k: usize) -> [u16; 8] {
    match k % 6 {
        0 | 3 => full(k),
        1 | 4 => routed(k),
        2 => local(k),
        _ => brief(k),
    }
}

impl Addresses {
    /// As many as have that many bytes.
    pub fn of(size: usize) -> Addresses {
        let list: Vec<Ipv6Addr> = (0..size / 16).map(|k| Ipv6Addr::from(groups(k))).collect();
        Addresses {
            bytes: list.iter().map(Ipv6Addr::octets).collect(),
            texts: list.iter().map(|address| address.to_string().into_bytes()).collect(),
        }
    }
}

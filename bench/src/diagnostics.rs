//! Diagnostic inputs: a payload for each kind of value that has that one entry, and payloads with every known type.

pub struct Diagnostics {
    pub byte: Vec<u8>,
    pub short: Vec<u8>,
    pub long: Vec<u8>,
    pub mode: Vec<u8>,
    pub connectivity: Vec<u8>,
    pub leader_data: Vec<u8>,
    pub mac_counters: Vec<u8>,
    pub route64_none: Vec<u8>,
    pub route64_4_in_1: Vec<u8>,
    pub route64_4_in_4: Vec<u8>,
    pub route64_32: Vec<u8>,
    pub route64: Vec<u8>,
    pub network_data: Vec<u8>,
    pub addresses: Vec<u8>,
    pub child_table: Vec<u8>,
    pub child_addresses: Vec<u8>,
    pub payload: Vec<u8>,
}

fn entry(ty: u8, value: &[u8]) -> Vec<u8> {
    let mut bytes = vec![ty];
    match value.len() {
        n @ ..255 => bytes.push(n as u8),
        n => bytes.extend([255, (n / 256) as u8, (n % 256) as u8]),
    }
    bytes.extend(value);
    bytes
}

pub fn some(len: usize) -> Vec<u8> {
    (0..len).map(|k| (k * 37 + 11) as u8).collect()
}

/// The routers of a mask, each with its route byte.
pub fn route64(mask: [u8; 8]) -> Vec<u8> {
    let mut value = vec![7];
    value.extend(mask);
    value.extend(some(mask.iter().map(|byte| byte.count_ones() as usize).sum()));
    value
}

pub const ALL_ROUTERS: [u8; 8] = [255; 8];

/// The most prefixes that there may be.
const PREFIXES: usize = 64;

/// Prefixes of 128 bytes, or as many as there may be and longer: 256 bytes still fit a TLV, whose length is a byte. Each has a context, a row of each
/// kind, and an inner TLV that is passed over, which fills it.
fn network_data(size: usize) -> Vec<u8> {
    let n = PREFIXES.min(size / 128);
    let prefix = |k: usize| {
        let mut value = vec![k as u8, 64];
        value.extend(some(8));
        value.extend([0x06, 2, 0x11, 64]);
        value.extend([0x00, 3, 0x12, k as u8, 0x60]);
        value.extend([0x04, 4, 0x34, k as u8, 0x55, 0x80]);
        value.extend(entry(0x12, &some(size / n - value.len() - 4)));
        let mut tlv = vec![0x03, value.len() as u8];
        tlv.extend(value);
        tlv
    };
    (0..n).flat_map(prefix).collect()
}

/// Children with three addresses each: 52 bytes.
fn child_addresses(size: usize) -> Vec<u8> {
    let child = |k: usize| {
        let mut value = vec![0x24, k as u8];
        value.extend(some(48));
        entry(30, &value)
    };
    (0..size / 52).flat_map(child).collect()
}

/// Every known type once, then children with addresses up to the size.
fn payload(size: usize) -> Vec<u8> {
    let mut bytes: Vec<u8> = [
        entry(0, &some(8)),
        entry(1, &some(2)),
        entry(2, &[0x0b]),
        entry(3, &some(4)),
        entry(4, &some(10)),
        entry(5, &route64(ALL_ROUTERS)),
        entry(6, &some(8)),
        entry(7, &network_data(size / 8)),
        entry(8, &some(size / 64 * 16)),
        entry(9, &some(36)),
        entry(14, &some(1)),
        entry(15, &some(2)),
        entry(16, &some(size / 16 * 3)),
        entry(17, &some(4)),
        entry(18, &some(17)),
        entry(23, &some(8)),
    ]
    .concat();
    bytes.extend(child_addresses(size - bytes.len()));
    bytes
}

impl Diagnostics {
    pub fn of(size: usize) -> Diagnostics {
        Diagnostics {
            byte: entry(14, &some(1)),
            short: entry(1, &some(2)),
            long: entry(3, &some(4)),
            mode: vec![0x0b],
            connectivity: entry(4, &some(10)),
            leader_data: entry(6, &some(8)),
            mac_counters: entry(9, &some(36)),
            route64_none: entry(5, &route64([0; 8])),
            route64_4_in_1: entry(5, &route64([0, 0, 0x5a, 0, 0, 0, 0, 0])),
            route64_4_in_4: entry(5, &route64([0x80, 0, 0x10, 0, 0, 0x04, 0, 0x01])),
            route64_32: entry(5, &route64([0xa5; 8])),
            route64: entry(5, &route64(ALL_ROUTERS)),
            network_data: network_data(size),
            addresses: entry(8, &some((size - 4) / 16 * 16)),
            child_table: entry(16, &some((size - 4) / 3 * 3)),
            child_addresses: child_addresses(size * 52 / 64),
            payload: payload(size),
        }
    }
}

//! What is written: the record that `speed_write` makes of a number (crates/speed/specs/Filled.antt), as the library has it and as the Rust has it.
use crate::inputs::MOST;
use crate::{diagnostics, ours};
use meshcop::meshcop::diag::NetDiagData;

/// The record's number is the size over this.
const PER: usize = 128;

pub struct Writing {
    pub n: u8,
    pub routes: Vec<u8>,
    pub parts: Vec<u8>,
    pub payload: Vec<u8>,
    pub record: NetDiagData,
}

impl Writing {
    /// The Rust's record is read from what the library writes: the limit must write the same bytes again. The bytes that are lent are as many as the addresses
    /// of the larger record take.
    pub fn of(size: usize) -> Writing {
        let (n, routes, parts) = ((size / PER) as u8, diagnostics::route64(diagnostics::ALL_ROUTERS), diagnostics::some(MOST / PER * 16));
        let mut payload = vec![0; MOST];
        let len = ours::write(&routes, &parts, n, &mut payload);
        payload.truncate(len as usize);
        let record = NetDiagData::decode(&payload).expect("a payload");
        Writing { n, routes, parts, payload, record }
    }
}

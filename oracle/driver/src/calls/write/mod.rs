//! The writer of document 02, which the Rust does not have: from a diagnostic record to a payload. `write`.
//!
//! The Rust is the judge of what comes out: it decodes the payload, and must find the very record of the request.

use meshcop::meshcop::diag::NetDiagData;
use meshcop::tlv::{self, TlvEntry};

use super::lent;
use super::records::record_words;
use crate::answer::{Answer, Refusal};
use crate::framed;
use crate::sizes;
use crate::words::Words;

mod cells;
mod fields;
mod fits;
mod layouts;
mod plain;

use fields::{Field, NetworkTables, Value};

/// `None` where the words are no record. All refusals stand at 0; their order is 13, 12, 15, 10, 11.
pub fn write(words: &mut Words) -> Option<Answer> {
    let cap = words.number()?;
    let texts = fields::texts(words)?;
    let fields = fields::read(&texts)?;
    Some(written(&fields).and_then(|payload| {
        see_that_the_rust_reads(&payload.bytes, &plain::words(&texts));
        sizes::test_result(&payload.bytes, payload.entries)?;
        lent(&payload.bytes, cap)
    }))
}

struct Payload {
    bytes: Vec<u8>,
    entries: usize,
}

/// Refusals 13, 12, 15, or the payload, of whatever size.
fn written(fields: &[Field]) -> Result<Payload, Refusal> {
    for field in fields {
        test_lengths(field)?;
    }
    for field in fields {
        test_tables(&field.value)?;
    }
    if !fields.iter().all(|field| fits::fits(&field.value)) {
        return Err(Refusal::at(15, 0));
    }
    let mut payload = Payload { bytes: Vec::new(), entries: 0 };
    for field in fields {
        for value in layouts::values(&field.value) {
            TlvEntry::new(field.ty, value).encode(&mut payload.bytes).map_err(framed::refusal_of_tlv)?;
            payload.entries += 1;
        }
    }
    Ok(payload)
}

/// 13, as the Rust refuses a header with such a length. A field may have another fault and still come to that, so its
/// length is told before its bytes are made.
fn test_lengths(field: &Field) -> Result<(), Refusal> {
    for length in layouts::free_lengths(&field.value) {
        tlv::encode_header(field.ty, length, &mut Vec::new()).map_err(framed::refusal_of_tlv)?;
    }
    Ok(())
}

/// 12, of the tables as they stand, whatever the prefixes count.
fn test_tables(value: &Value) -> Result<(), Refusal> {
    let Value::NetworkData(NetworkTables { prefixes, has_routes, border_routers }) = value else {
        return Ok(());
    };
    let most = sizes::NETWORK_DATA;
    let over = prefixes.len() > most.prefixes
        || has_routes.len() > most.has_routes
        || border_routers.len() > most.border_routers;
    if over { Err(Refusal::at(12, 0)) } else { Ok(()) }
}

/// Where the Rust does not read the record back, this ends the run. It has no sizes, so this holds of any payload.
fn see_that_the_rust_reads(payload: &[u8], record: &str) {
    let read = NetDiagData::decode(payload).map(|data| record_words(&data));
    assert_eq!(read.ok().as_deref(), Some(record), "the Rust's record of what was written for {record}");
}

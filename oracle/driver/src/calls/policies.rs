//! The security policy in a mode that is named: in four bytes, which is the Rust's, or in three, which is document 02's.
//! `pol.v`, `pol.q`, `pol.thr`, `pol.set`, `pol.back`.

use meshcop::Error;
use meshcop::dataset::{SecurityPolicy, TLV_SECURITY_POLICY, ThreadProtocolVersion};

use super::parts;
use super::queries::{self, Kind, SECURITY_POLICY};
use super::{lent, value};
use crate::answer::{Answer, Found, Refusal};
use crate::words::bytes_word;

/// How many bytes a policy must have to be read.
#[derive(Clone, Copy)]
pub enum Mode {
    Three,
    Four,
}

pub fn mode_of(number: u64) -> Option<Mode> {
    match number {
        3 => Some(Mode::Three),
        4 => Some(Mode::Four),
        _ => None,
    }
}

/// The type's values in the mode of three bytes. Of these the Rust has no more than the raw value.
const OLDER_POLICY: Kind = Kind {
    ty: TLV_SECURITY_POLICY,
    fault: 4,
    query: |dataset| dataset.raw(TLV_SECURITY_POLICY).map(older_policy_words).transpose(),
    parse: Some(older_policy_words),
};

/// In the mode of three bytes no threshold is stated, and none can be set.
const NONE_STATED: &str = "none-stated";

/// Rotation and the flag byte, which is kept raw.
fn older_policy_words(bytes: &[u8]) -> meshcop::Result<String> {
    let &[high, low, flags] = bytes else {
        return Err(Error::Dataset("not three bytes".to_string()));
    };
    let rotation_time = u16::from_be_bytes([high, low]);
    see_that_the_rust_reads(bytes, rotation_time, flags);
    Ok(format!("{rotation_time} {flags}"))
}

/// That the Rust refuses the three bytes, and with a zero byte after them reads the rotation, and the flag byte before the zero.
fn see_that_the_rust_reads(bytes: &[u8], rotation_time: u16, flags: u8) {
    let parts = |bytes: &[u8]| SecurityPolicy::parse(bytes).ok().map(|read| (read.rotation_time, read.flags.bits()));
    let by_rust = (parts(bytes), parts(&[bytes, &[0]].concat()));
    let by_mode = (None, Some((rotation_time, u16::from(flags) << 8)));
    assert_eq!(by_rust, by_mode, "the Rust and the mode of three bytes on the policy {}", bytes_word(bytes));
}

/// Refusals 1 and 4, or the mode, rotation and flags.
pub fn bare(mode: Mode, bytes: &[u8]) -> Answer {
    match mode {
        Mode::Three => after("3", queries::bare(&OLDER_POLICY, bytes)),
        Mode::Four => after("4", queries::bare(&SECURITY_POLICY, bytes)),
    }
}

/// Refusals 1, 2, 3 of the dataset, then 4, or the same of its last policy.
pub fn query(mode: Mode, bytes: &[u8]) -> Answer {
    match mode {
        Mode::Three => after("3", queries::query(&OLDER_POLICY, bytes)),
        Mode::Four => after("4", queries::query(&SECURITY_POLICY, bytes)),
    }
}

pub fn threshold(mode: Mode, bytes: &[u8]) -> Answer {
    match mode {
        Mode::Three => {
            queries::bare(&OLDER_POLICY, bytes)?;
            value(NONE_STATED)
        }
        Mode::Four => parts::flags_get(policy_of(bytes)?.flags.bits()),
    }
}

/// The value is written back in the mode that it was read in.
pub fn set_threshold(mode: Mode, bytes: &[u8], version: ThreadProtocolVersion) -> Answer {
    match mode {
        Mode::Three => {
            queries::bare(&OLDER_POLICY, bytes)?;
            value(format!("{NONE_STATED} {}", bytes_word(bytes)))
        }
        Mode::Four => {
            let policy = policy_of(bytes)?;
            let flags = parts::with_threshold(policy.flags, version);
            after("set", parts::policy_bytes(policy.rotation_time, flags.bits()))
        }
    }
}

/// Refusals 1, 4 and 11, or the value written back in the mode that it was read in.
pub fn write_back(mode: Mode, bytes: &[u8], cap: u64) -> Answer {
    match mode {
        Mode::Three => {
            queries::bare(&OLDER_POLICY, bytes)?;
            lent(bytes, cap)
        }
        Mode::Four => lent(&policy_of(bytes)?.to_value(), cap),
    }
}

/// Refusals 1 and 4, or the Rust's policy.
fn policy_of(bytes: &[u8]) -> Result<SecurityPolicy, Refusal> {
    queries::bare(&SECURITY_POLICY, bytes)?;
    Ok(SecurityPolicy::parse(bytes).expect("just seen to be one"))
}

/// The answer, and this word before those of a value.
fn after(word: &str, answer: Answer) -> Answer {
    match answer? {
        Found::Value(words) => value(format!("{word} {words}")),
        Found::Absent => Ok(Found::Absent),
    }
}

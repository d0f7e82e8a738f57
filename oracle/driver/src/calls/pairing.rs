//! Child pairing, which the Rust does not have: the answers of documents 01 and 02 over the Rust's record. `pair`.

use meshcop::meshcop::diag::{ChildIpv6AddrInfo, ChildTableEntry};

use super::value;
use crate::answer::Answer;
use crate::decoded::read_payload;
use crate::sizes;

/// The count, then `p` and the list's number, `none` or `unclear` for each row of the child table.
pub fn pair(payload: &[u8], cap: u64) -> Answer {
    let data = read_payload(payload)?;
    let rows = data.child_table.unwrap_or_default();
    let lists = data.child_ipv6_addresses.unwrap_or_default();
    sizes::test_room(rows.len(), cap)?;
    let mut words = rows.len().to_string();
    for row in &rows {
        let word = match data.mac_addr {
            Some(mac_address) => partner_word(row.child_id, &rows, &lists, parent_of(mac_address)),
            None => "unclear".to_string(),
        };
        words += &format!(" {word}");
    }
    value(words)
}

/// The top six bits of an RLOC16 name the parent router.
fn parent_of(rloc16: u16) -> u16 {
    rloc16 / 1024
}

/// Only lists of this parent count, but a pair's number is that among all.
fn partner_word(child_id: u16, rows: &[ChildTableEntry], lists: &[ChildIpv6AddrInfo], parent: u16) -> String {
    let in_table = rows.iter().filter(|row| row.child_id == child_id).count();
    let counts = |list: &ChildIpv6AddrInfo| list.child_id == child_id && parent_of(list.rloc16) == parent;
    let in_lists: Vec<usize> = (0..lists.len()).filter(|number| counts(&lists[*number])).collect();
    match (in_table, &in_lists[..]) {
        (1, [list]) => format!("p{list}"),
        (1, []) => "none".to_string(),
        _ => "unclear".to_string(),
    }
}

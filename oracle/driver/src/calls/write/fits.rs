//! What document 02 refuses with 15: a field that no payload says.

use meshcop::meshcop::diag::{
    BorderRouterEntry, ChildTableEntry, Connectivity, HasRouteEntry, Route64, RouteDataEntry, SixLowPanContext,
};

use super::fields::{AddressList, NetworkTables, Prefix, Value};
use super::layouts;

const ADDRESS: usize = 16;
const CHILD_IDS: u16 = 512;
/// A Network Data TLV has one length byte, and 255 in it is a length like any other.
const MOST_IN_ITEM: usize = 255;

/// What is greatest in so many bits.
const TWO_BITS: u8 = 3;
const FOUR_BITS: u8 = 15;
const FIVE_BITS: u8 = 31;

pub fn fits(value: &Value) -> bool {
    match value {
        Value::Connectivity(connectivity) => connectivity_fits(connectivity),
        Value::Route64(route64) => route64_fits(route64),
        Value::NetworkData(tables) => network_data_fits(tables),
        Value::Addresses(bytes) => are_addresses(bytes),
        Value::ChildTable(rows) => rows.iter().all(child_fits),
        Value::Eui64(bytes) => bytes.len() == 8,
        Value::AddressLists(lists) => lists.iter().all(list_fits),
        // Nothing that such a field can hold is at fault.
        Value::AnyBytes(_) | Value::Byte(_) | Value::Short(_) | Value::Long(_) => true,
        Value::Mode(_) | Value::LeaderData(_) | Value::MacCounters(_) => true,
    }
}

/// The late fields are both there or both absent.
fn connectivity_fits(c: &Connectivity) -> bool {
    let both_or_none = c.rx_off_child_buffer_size.is_some() == c.rx_off_child_datagram_count.is_some();
    (-2..=1).contains(&c.parent_priority) && both_or_none
}

/// The rows are those of the mask's set bits, ascending.
fn route64_fits(route64: &Route64) -> bool {
    let mask = u64::from_be_bytes(route64.mask);
    let assigned = (0..64u8).filter(|router| mask & (1 << (63 - router)) != 0);
    assigned.eq(route64.route_data.iter().map(|row| row.router_id)) && route64.route_data.iter().all(route_fits)
}

fn route_fits(row: &RouteDataEntry) -> bool {
    row.outgoing_link_quality <= TWO_BITS && row.incoming_link_quality <= TWO_BITS && row.route_cost <= FOUR_BITS
}

fn network_data_fits(tables: &NetworkTables) -> bool {
    counts_fit(tables)
        && tables.has_routes.iter().all(has_route_fits)
        && tables.border_routers.iter().all(border_router_fits)
        && tables.prefixes.iter().all(prefix_fits)
        && layouts::prefix_values(tables).iter().all(|value| value.len() <= MOST_IN_ITEM)
}

/// The counts of all prefixes together are the rows of each table. Two counts alone can be over 64 bits.
fn counts_fit(tables: &NetworkTables) -> bool {
    let sum = |count: fn(&Prefix) -> u64| tables.prefixes.iter().map(|prefix| u128::from(count(prefix))).sum::<u128>();
    sum(|prefix| prefix.has_routes) == tables.has_routes.len() as u128
        && sum(|prefix| prefix.border_routers) == tables.border_routers.len() as u128
}

fn has_route_fits(row: &HasRouteEntry) -> bool {
    row.router_preference <= TWO_BITS
}

fn border_router_fits(row: &BorderRouterEntry) -> bool {
    row.prefix_preference <= TWO_BITS
}

/// Bit lengths over 128 are no fault, nor are context lengths.
fn prefix_fits(prefix: &Prefix) -> bool {
    let context_fits = |context: SixLowPanContext| context.context_id <= FOUR_BITS;
    prefix.bytes.len() == usize::from(prefix.bits).div_ceil(8) && prefix.context.is_none_or(context_fits)
}

fn are_addresses(bytes: &[u8]) -> bool {
    bytes.len().is_multiple_of(ADDRESS)
}

fn child_fits(row: &ChildTableEntry) -> bool {
    row.timeout_exponent <= FIVE_BITS && row.incoming_link_quality <= TWO_BITS && row.child_id < CHILD_IDS
}

fn list_fits(list: &AddressList) -> bool {
    list.child_id == list.rloc16 % CHILD_IDS && are_addresses(&list.addresses)
}

//! Document 01's layouts of diagnostic values, for writing: reserved bits and the stable bit are clear.

use meshcop::meshcop::diag::{
    BorderRouterEntry, ChildTableEntry, Connectivity, HasRouteEntry, LeaderData, ModeData, Route64, RouteDataEntry,
    SixLowPanContext,
};

use super::fields::{AddressList, NetworkTables, Prefix, Value};
use crate::rules::network_tlvs::{BORDER_ROUTER, CONTEXT, HAS_ROUTE, PREFIX};

const CHILD_ROW: usize = 3;
const RLOC16: usize = 2;

/// The lengths of the values that are as long as their field says; those of Network Data are bound by other refusals.
pub fn free_lengths(value: &Value) -> Vec<usize> {
    match value {
        Value::AnyBytes(bytes) | Value::Addresses(bytes) => vec![bytes.len()],
        Value::ChildTable(rows) => vec![CHILD_ROW * rows.len()],
        Value::AddressLists(lists) => lists.iter().map(|list| RLOC16 + list.addresses.len()).collect(),
        _ => Vec::new(),
    }
}

/// The values of a field's entries: one of most fields, one for each of the address lists. The field must fit.
pub fn values(value: &Value) -> Vec<Vec<u8>> {
    vec![match value {
        Value::AnyBytes(bytes) | Value::Addresses(bytes) | Value::Eui64(bytes) => bytes.clone(),
        Value::Byte(number) => vec![*number],
        Value::Short(number) => number.to_be_bytes().to_vec(),
        Value::Long(number) => number.to_be_bytes().to_vec(),
        Value::Mode(mode) => vec![mode_byte(mode)],
        Value::Connectivity(connectivity) => connectivity_value(connectivity),
        Value::Route64(route64) => route64_value(route64),
        Value::LeaderData(leader_data) => leader_data_value(leader_data),
        Value::NetworkData(tables) => prefix_values(tables).iter().flat_map(|value| item(PREFIX, value)).collect(),
        Value::MacCounters(counters) => counters.iter().flat_map(|counter| counter.to_be_bytes()).collect(),
        Value::ChildTable(rows) => rows.iter().flat_map(child_row).collect(),
        Value::AddressLists(lists) => return lists.iter().map(address_list_value).collect(),
    }]
}

/// The second bit from below is set of a device that is not minimal.
fn mode_byte(mode: &ModeData) -> u8 {
    bits(&[(mode.rx_on_when_idle, 3), (!mode.is_mtd, 1), (mode.requires_full_network_data, 0)])
}

/// The bits that are to be set, each at its place from below.
fn bits(wanted: &[(bool, u8)]) -> u8 {
    wanted.iter().map(|(set, place)| u8::from(*set) << place).sum()
}

/// The priority's two bits are the last two of the signed number.
fn connectivity_value(c: &Connectivity) -> Vec<u8> {
    let priority = (c.parent_priority as u8) << 6;
    let (lq3, lq2, lq1) = (c.link_quality_3, c.link_quality_2, c.link_quality_1);
    let mut value = vec![priority, lq3, lq2, lq1, c.leader_cost, c.id_sequence, c.active_routers];
    value.extend(c.rx_off_child_buffer_size.iter().flat_map(|size| size.to_be_bytes()));
    value.extend(c.rx_off_child_datagram_count);
    value
}

fn route64_value(route64: &Route64) -> Vec<u8> {
    let mut value = vec![route64.id_sequence];
    value.extend(route64.mask);
    value.extend(route64.route_data.iter().map(route_byte));
    value
}

fn route_byte(row: &RouteDataEntry) -> u8 {
    row.outgoing_link_quality << 6 | row.incoming_link_quality << 4 | row.route_cost
}

fn leader_data_value(l: &LeaderData) -> Vec<u8> {
    let mut value = l.partition_id.to_be_bytes().to_vec();
    value.extend([l.weighting, l.data_version, l.stable_data_version, l.router_id]);
    value
}

/// A Network Data TLV. That its length fits is seen to before.
fn item(ty: u8, value: &[u8]) -> Vec<u8> {
    let mut item = vec![ty, value.len() as u8];
    item.extend(value);
    item
}

/// The values of the prefix TLVs, each with its rows: the first of what the prefixes before it left. The counts must fit.
pub fn prefix_values(tables: &NetworkTables) -> Vec<Vec<u8>> {
    let mut has_routes = tables.has_routes.iter();
    let mut border_routers = tables.border_routers.iter();
    let value_of = |prefix: &Prefix| {
        let routes: Vec<u8> = has_routes.by_ref().take(prefix.has_routes as usize).flat_map(has_route_row).collect();
        let borders = border_routers.by_ref().take(prefix.border_routers as usize);
        prefix_value(prefix, &routes, &borders.flat_map(border_router_row).collect::<Vec<u8>>())
    };
    tables.prefixes.iter().map(value_of).collect()
}

/// Of each kind one inner TLV, and none where there are no rows.
fn prefix_value(prefix: &Prefix, routes: &[u8], borders: &[u8]) -> Vec<u8> {
    let mut value = vec![prefix.domain, prefix.bits];
    value.extend(&prefix.bytes);
    if !routes.is_empty() {
        value.extend(item(HAS_ROUTE, routes));
    }
    if !borders.is_empty() {
        value.extend(item(BORDER_ROUTER, borders));
    }
    if let Some(context) = prefix.context {
        value.extend(item(CONTEXT, &context_value(context)));
    }
    value
}

fn has_route_row(row: &HasRouteEntry) -> [u8; 3] {
    let [high, low] = row.rloc16.to_be_bytes();
    [high, low, row.router_preference << 6 | bits(&[(row.is_nat64, 5)])]
}

fn border_router_row(row: &BorderRouterEntry) -> [u8; 4] {
    let [high, low] = row.rloc16.to_be_bytes();
    let third = bits(&[
        (row.is_preferred, 5),
        (row.is_slaac, 4),
        (row.is_dhcp, 3),
        (row.is_configure, 2),
        (row.is_default_route, 1),
        (row.is_on_mesh, 0),
    ]);
    [high, low, row.prefix_preference << 6 | third, bits(&[(row.is_nd_dns, 7), (row.is_dp, 6)])]
}

fn context_value(context: SixLowPanContext) -> [u8; 2] {
    [bits(&[(context.is_compress, 4)]) | context.context_id, context.context_length]
}

fn child_row(row: &ChildTableEntry) -> [u8; 3] {
    let [high, low] = row.child_id.to_be_bytes();
    [row.timeout_exponent << 3 | row.incoming_link_quality << 1 | high, low, mode_byte(&row.mode)]
}

fn address_list_value(list: &AddressList) -> Vec<u8> {
    [&list.rloc16.to_be_bytes()[..], &list.addresses].concat()
}

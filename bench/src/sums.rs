//! The fields of the Rust's records as one number: the specs/Sums.antt of crates/value_sums and crates/payload_sums say the same of the library's.
use meshcop::meshcop::diag::{ChildTableEntry, Connectivity, LeaderData, MacCounters, ModeData, NetDiagData, NetworkData, Route64};
use std::net::Ipv6Addr;

pub fn mode(m: &ModeData) -> u64 {
    u64::from(m.rx_on_when_idle) + u64::from(m.is_mtd) + u64::from(m.requires_full_network_data)
}

fn connectivity(c: &Connectivity) -> u64 {
    let bytes = [c.link_quality_3, c.link_quality_2, c.link_quality_1, c.leader_cost, c.id_sequence, c.active_routers];
    let rank = match c.parent_priority {
        1 => 1,
        0 => 2,
        -1 => 3,
        _ => 4,
    };
    rank
        + bytes.iter().map(|&byte| u64::from(byte)).sum::<u64>()
        + c.rx_off_child_buffer_size.map_or(0, u64::from)
        + c.rx_off_child_datagram_count.map_or(0, u64::from)
}

fn leader_data(l: &LeaderData) -> u64 {
    let bytes = [l.weighting, l.data_version, l.stable_data_version, l.router_id];
    u64::from(l.partition_id) + bytes.iter().map(|&byte| u64::from(byte)).sum::<u64>()
}

fn mac_counters(c: &MacCounters) -> u64 {
    let counters = [
        c.if_in_unknown_protos,
        c.if_in_errors,
        c.if_out_errors,
        c.if_in_ucast_pkts,
        c.if_in_broadcast_pkts,
        c.if_in_discards,
        c.if_out_ucast_pkts,
        c.if_out_broadcast_pkts,
        c.if_out_discards,
    ];
    counters.iter().map(|&counter| u64::from(counter)).sum()
}

/// How many records there are.
pub fn network_data(n: &NetworkData) -> u64 {
    let rows = |k: usize| n.prefixes[k].has_route.len() + n.prefixes[k].border_routers.len();
    (n.prefixes.len() + (0..n.prefixes.len()).map(rows).sum::<usize>()) as u64
}

/// The values of a record, those that are any bytes by their length.
pub fn values(d: &NetDiagData) -> u64 {
    let bytes = [
        d.ext_mac_addr.as_ref().map_or(0, Vec::len),
        d.channel_pages.as_ref().map_or(0, Vec::len),
        d.type_list.as_ref().map_or(0, Vec::len),
        d.eui64.map_or(0, |id| id.len()),
        d.child_ipv6_addresses.as_ref().map_or(0, Vec::len),
    ];
    bytes.iter().sum::<usize>() as u64
        + d.mac_addr.map_or(0, u64::from)
        + d.mode.as_ref().map_or(0, mode)
        + d.timeout.map_or(0, u64::from)
        + d.connectivity.as_ref().map_or(0, connectivity)
        + d.leader_data.as_ref().map_or(0, leader_data)
        + d.network_data.as_ref().map_or(0, network_data)
        + d.mac_counters.as_ref().map_or(0, mac_counters)
        + d.battery_level.map_or(0, u64::from)
        + d.supply_voltage.map_or(0, u64::from)
}

fn route64(r: &Route64) -> u64 {
    let row = |k: usize| {
        let row = &r.route_data[k];
        [row.router_id, row.outgoing_link_quality, row.incoming_link_quality, row.route_cost].iter().map(|&byte| u64::from(byte)).sum::<u64>()
    };
    u64::from(r.id_sequence) + r.mask.iter().map(|&byte| u64::from(byte)).sum::<u64>() + (0..r.route_data.len()).map(row).sum::<u64>()
}

fn child(c: &ChildTableEntry) -> u64 {
    u64::from(c.timeout_exponent) + u64::from(c.incoming_link_quality) + u64::from(c.child_id) + mode(&c.mode)
}

/// Of an address the last byte.
fn addresses(list: &[Ipv6Addr]) -> u64 {
    list.iter().map(|address| u64::from(address.octets()[15])).sum()
}

/// All rows of a record.
pub fn rows(d: &NetDiagData) -> u64 {
    let lists = d.child_ipv6_addresses.as_deref().unwrap_or_default();
    d.route64.as_ref().map_or(0, route64)
        + d.child_table.as_ref().map_or(0, |rows| rows.iter().map(child).sum())
        + d.addresses.as_ref().map_or(0, |list| addresses(list))
        + lists.iter().map(|list| u64::from(list.rloc16) + u64::from(list.child_id) + addresses(&list.addresses)).sum::<u64>()
}

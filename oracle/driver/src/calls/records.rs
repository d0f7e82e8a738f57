//! The words for what the Rust decodes of a diagnostic payload: fields `TYPE=TEXT`, types ascending.

use std::net::Ipv6Addr;

use meshcop::meshcop::diag::{
    BorderRouterEntry, ChildIpv6AddrInfo, ChildTableEntry, Connectivity, HasRouteEntry, LeaderData, MacCounters,
    ModeData, NetDiagData, NetworkData, PrefixEntry, Route64, RouteDataEntry,
};

use crate::words::bytes_word;

/// The fields that are there, or `-`.
pub fn record_words(data: &NetDiagData) -> String {
    let texts = [
        (0, data.ext_mac_addr.as_deref().map(bytes_word)),
        (1, data.mac_addr.map(|number| number.to_string())),
        (2, data.mode.map(mode_text)),
        (3, data.timeout.map(|number| number.to_string())),
        (4, data.connectivity.map(connectivity_text)),
        (5, data.route64.as_ref().map(route64_text)),
        (6, data.leader_data.map(leader_data_text)),
        (7, data.network_data.as_ref().map(network_data_text)),
        (8, data.addresses.as_deref().map(addresses_text)),
        (9, data.mac_counters.map(mac_counters_text)),
        (14, data.battery_level.map(|number| number.to_string())),
        (15, data.supply_voltage.map(|number| number.to_string())),
        (16, data.child_table.as_deref().map(|rows| rows_text(rows, child_text))),
        (17, data.channel_pages.as_deref().map(bytes_word)),
        (18, data.type_list.as_deref().map(bytes_word)),
        (23, data.eui64.map(|bytes| bytes_word(&bytes))),
        (30, data.child_ipv6_addresses.as_deref().map(|lists| rows_text(lists, list_text))),
    ];
    let fields: Vec<String> = texts.iter().filter_map(|(ty, text)| Some(format!("{ty}={}", text.as_ref()?))).collect();
    if fields.is_empty() { "-".to_string() } else { fields.join(" ") }
}

/// Rows parted by `/`, `-` for none.
fn rows_text<'a, R: 'a>(rows: impl IntoIterator<Item = &'a R>, text_of: fn(&R) -> String) -> String {
    let texts: Vec<String> = rows.into_iter().map(text_of).collect();
    if texts.is_empty() { "-".to_string() } else { texts.join("/") }
}

fn digits(bits: &[bool]) -> String {
    bits.iter().map(|bit| if *bit { '1' } else { '0' }).collect()
}

/// Receiver on, minimal device, full Network Data.
fn mode_text(mode: ModeData) -> String {
    digits(&[mode.rx_on_when_idle, mode.is_mtd, mode.requires_full_network_data])
}

fn connectivity_text(c: Connectivity) -> String {
    let late = |number: Option<u16>| number.map_or("-".to_string(), |number| number.to_string());
    format!(
        "{},{},{},{},{},{},{},{},{}",
        c.parent_priority,
        c.link_quality_3,
        c.link_quality_2,
        c.link_quality_1,
        c.leader_cost,
        c.id_sequence,
        c.active_routers,
        late(c.rx_off_child_buffer_size),
        late(c.rx_off_child_datagram_count.map(u16::from)),
    )
}

fn route64_text(route64: &Route64) -> String {
    let rows = rows_text(&route64.route_data, route_text);
    format!("{},{},{rows}", route64.id_sequence, bytes_word(&route64.mask))
}

fn route_text(row: &RouteDataEntry) -> String {
    format!("{}:{}:{}:{}", row.router_id, row.outgoing_link_quality, row.incoming_link_quality, row.route_cost)
}

fn leader_data_text(l: LeaderData) -> String {
    format!("{},{},{},{},{}", l.partition_id, l.weighting, l.data_version, l.stable_data_version, l.router_id)
}

/// The prefixes, with their row counts, then all HasRoute rows and all BorderRouter rows, in prefix order.
fn network_data_text(data: &NetworkData) -> String {
    let prefixes = rows_text(&data.prefixes, prefix_text);
    let has_routes = rows_text(data.prefixes.iter().flat_map(|prefix| &prefix.has_route), has_route_text);
    let border_routers = rows_text(data.prefixes.iter().flat_map(|prefix| &prefix.border_routers), border_router_text);
    format!("{prefixes}|{has_routes}|{border_routers}")
}

fn prefix_text(prefix: &PrefixEntry) -> String {
    let context = prefix.six_low_pan_context.map_or("-".to_string(), |context| {
        format!("{}.{}.{}", u8::from(context.is_compress), context.context_id, context.context_length)
    });
    format!(
        "{}:{}:{}:{context}:{}:{}",
        prefix.domain_id,
        prefix.prefix_bit_length,
        bytes_word(&prefix.prefix),
        prefix.has_route.len(),
        prefix.border_routers.len(),
    )
}

fn has_route_text(row: &HasRouteEntry) -> String {
    format!("{}:{}:{}", row.rloc16, row.router_preference, u8::from(row.is_nat64))
}

/// The flags P S D C R O N DP.
fn border_router_text(row: &BorderRouterEntry) -> String {
    let flags = [
        row.is_preferred,
        row.is_slaac,
        row.is_dhcp,
        row.is_configure,
        row.is_default_route,
        row.is_on_mesh,
        row.is_nd_dns,
        row.is_dp,
    ];
    format!("{}:{}:{}", row.rloc16, row.prefix_preference, digits(&flags))
}

fn addresses_text(addresses: &[Ipv6Addr]) -> String {
    bytes_word(&addresses.iter().flat_map(Ipv6Addr::octets).collect::<Vec<u8>>())
}

fn mac_counters_text(c: MacCounters) -> String {
    let numbers = [
        c.if_in_unknown_protos,
        c.if_in_errors,
        c.if_out_errors,
        c.if_in_ucast_pkts,
        c.if_in_broadcast_pkts,
        c.if_in_discards,
        c.if_out_ucast_pkts,
        c.if_out_broadcast_pkts,
        c.if_out_discards,
    ];
    numbers.map(|number| number.to_string()).join(",")
}

fn child_text(row: &ChildTableEntry) -> String {
    format!("{}:{}:{}:{}", row.timeout_exponent, row.incoming_link_quality, row.child_id, mode_text(row.mode))
}

fn list_text(list: &ChildIpv6AddrInfo) -> String {
    format!("{}:{}:{}", list.rloc16, list.child_id, addresses_text(&list.addresses))
}

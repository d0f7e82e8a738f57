//! The fields of a record as a request says them. What is at fault must be held too, so the Rust's own structs serve only
//! where any text of the field fits into them.

use meshcop::meshcop::diag::{
    BorderRouterEntry, ChildTableEntry, Connectivity, HasRouteEntry, LeaderData, ModeData, Route64, RouteDataEntry,
    SixLowPanContext,
};

use super::cells::{absent_or, bit, bytes, cells, digits, number, numbers, rows, signed};
use crate::words::Words;

/// The type of a field, and its text.
pub type FieldText<'a> = (u8, &'a str);

pub struct Field {
    pub ty: u8,
    pub value: Value,
}

pub enum Value {
    AnyBytes(Vec<u8>),
    Byte(u8),
    Short(u16),
    Long(u32),
    Mode(ModeData),
    Connectivity(Connectivity),
    Route64(Route64),
    LeaderData(LeaderData),
    NetworkData(NetworkTables),
    Addresses(Vec<u8>),
    MacCounters([u32; 9]),
    ChildTable(Vec<ChildTableEntry>),
    Eui64(Vec<u8>),
    AddressLists(Vec<AddressList>),
}

/// The three tables of Network Data, in which a prefix only counts its rows.
pub struct NetworkTables {
    pub prefixes: Vec<Prefix>,
    pub has_routes: Vec<HasRouteEntry>,
    pub border_routers: Vec<BorderRouterEntry>,
}

pub struct Prefix {
    pub domain: u8,
    pub bits: u8,
    pub bytes: Vec<u8>,
    pub context: Option<SixLowPanContext>,
    pub has_routes: u64,
    pub border_routers: u64,
}

pub struct AddressList {
    pub rloc16: u16,
    pub child_id: u16,
    pub addresses: Vec<u8>,
}

/// The texts of all words that are left, of which there must be one; none of a record without a field.
pub fn texts<'a>(words: &mut Words<'a>) -> Option<Vec<FieldText<'a>>> {
    let mut word = words.word()?;
    if word == b"-" {
        return Some(Vec::new());
    }
    let mut texts = Vec::new();
    loop {
        let (ty, text) = std::str::from_utf8(word).ok()?.split_once('=')?;
        texts.push((number(ty)?, text));
        if words.are_all_read() {
            return Some(texts);
        }
        word = words.word()?;
    }
}

/// The fields, if their types ascend and each text can be read.
pub fn read(texts: &[FieldText]) -> Option<Vec<Field>> {
    if !texts.is_sorted_by(|(ty, _), (next, _)| ty < next) {
        return None;
    }
    texts.iter().map(|(ty, text)| Some(Field { ty: *ty, value: value(*ty, text)? })).collect()
}

fn value(ty: u8, text: &str) -> Option<Value> {
    Some(match ty {
        0 | 17 | 18 => Value::AnyBytes(bytes(text)?),
        1 | 15 => Value::Short(number(text)?),
        2 => Value::Mode(mode(text)?),
        3 => Value::Long(number(text)?),
        4 => Value::Connectivity(connectivity(text)?),
        5 => Value::Route64(route64(text)?),
        6 => Value::LeaderData(leader_data(text)?),
        7 => Value::NetworkData(network_tables(text)?),
        8 => Value::Addresses(bytes(text)?),
        9 => Value::MacCounters(numbers(text, ',')?),
        14 => Value::Byte(number(text)?),
        16 => Value::ChildTable(rows(text, child)?),
        23 => Value::Eui64(bytes(text)?),
        30 => Value::AddressLists(rows(text, address_list)?),
        _ => return None,
    })
}

fn mode(cell: &str) -> Option<ModeData> {
    let [rx_on_when_idle, is_mtd, requires_full_network_data] = digits(cell)?;
    Some(ModeData { rx_on_when_idle, is_mtd, requires_full_network_data })
}

fn connectivity(text: &str) -> Option<Connectivity> {
    let [priority, lq3, lq2, lq1, cost, sequence, routers, buffer, count] = cells(text, ',')?;
    Some(Connectivity {
        parent_priority: signed(priority)?,
        link_quality_3: number(lq3)?,
        link_quality_2: number(lq2)?,
        link_quality_1: number(lq1)?,
        leader_cost: number(cost)?,
        id_sequence: number(sequence)?,
        active_routers: number(routers)?,
        rx_off_child_buffer_size: absent_or(buffer, number)?,
        rx_off_child_datagram_count: absent_or(count, number)?,
    })
}

fn route64(text: &str) -> Option<Route64> {
    let [sequence, mask, routes] = cells(text, ',')?;
    Some(Route64 {
        id_sequence: number(sequence)?,
        mask: bytes(mask)?.try_into().ok()?,
        route_data: rows(routes, route)?,
    })
}

fn route(row: &str) -> Option<RouteDataEntry> {
    let [router_id, outgoing_link_quality, incoming_link_quality, route_cost] = numbers(row, ':')?;
    Some(RouteDataEntry { router_id, outgoing_link_quality, incoming_link_quality, route_cost })
}

fn leader_data(text: &str) -> Option<LeaderData> {
    let [partition, weighting, version, stable_version, router] = cells(text, ',')?;
    Some(LeaderData {
        partition_id: number(partition)?,
        weighting: number(weighting)?,
        data_version: number(version)?,
        stable_data_version: number(stable_version)?,
        router_id: number(router)?,
    })
}

fn network_tables(text: &str) -> Option<NetworkTables> {
    let [prefixes, has_routes, border_routers] = cells(text, '|')?;
    Some(NetworkTables {
        prefixes: rows(prefixes, prefix)?,
        has_routes: rows(has_routes, has_route)?,
        border_routers: rows(border_routers, border_router)?,
    })
}

fn prefix(row: &str) -> Option<Prefix> {
    let [domain, bits, prefix, prefix_context, routes, borders] = cells(row, ':')?;
    Some(Prefix {
        domain: number(domain)?,
        bits: number(bits)?,
        bytes: bytes(prefix)?,
        context: absent_or(prefix_context, context)?,
        has_routes: number(routes)?,
        border_routers: number(borders)?,
    })
}

fn context(cell: &str) -> Option<SixLowPanContext> {
    let [compress, id, length] = cells(cell, '.')?;
    Some(SixLowPanContext { is_compress: bit(compress)?, context_id: number(id)?, context_length: number(length)? })
}

fn has_route(row: &str) -> Option<HasRouteEntry> {
    let [rloc16, preference, nat64] = cells(row, ':')?;
    Some(HasRouteEntry { rloc16: number(rloc16)?, router_preference: number(preference)?, is_nat64: bit(nat64)? })
}

fn border_router(row: &str) -> Option<BorderRouterEntry> {
    let [rloc16, preference, flags] = cells(row, ':')?;
    let [is_preferred, is_slaac, is_dhcp, is_configure, is_default_route, is_on_mesh, is_nd_dns, is_dp] =
        digits(flags)?;
    Some(BorderRouterEntry {
        rloc16: number(rloc16)?,
        prefix_preference: number(preference)?,
        is_preferred,
        is_slaac,
        is_dhcp,
        is_configure,
        is_default_route,
        is_on_mesh,
        is_nd_dns,
        is_dp,
    })
}

fn child(row: &str) -> Option<ChildTableEntry> {
    let [exponent, quality, id, child_mode] = cells(row, ':')?;
    Some(ChildTableEntry {
        timeout_exponent: number(exponent)?,
        incoming_link_quality: number(quality)?,
        child_id: number(id)?,
        mode: mode(child_mode)?,
    })
}

fn address_list(row: &str) -> Option<AddressList> {
    let [rloc16, id, addresses] = cells(row, ':')?;
    Some(AddressList { rloc16: number(rloc16)?, child_id: number(id)?, addresses: bytes(addresses)? })
}

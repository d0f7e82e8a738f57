//! The least that writing a record can cost: a test for each field and a store for each byte. No room is asked for, and nothing is refused. The Rust has no
//! such writer; the record is its own.
use meshcop::meshcop::diag::{BorderRouterEntry, ChildTableEntry, Connectivity, HasRouteEntry, LeaderData, MacCounters, ModeData, NetDiagData, NetworkData, PrefixEntry, Route64};
use std::net::Ipv6Addr;

/// Where the next byte goes.
struct Pen(*mut u8);

impl Pen {
    fn byte(&mut self, byte: u8) {
        unsafe {
            *self.0 = byte;
            self.0 = self.0.add(1);
        }
    }

    fn bytes(&mut self, bytes: &[u8]) {
        bytes.iter().for_each(|&byte| self.byte(byte));
    }

    fn header(&mut self, ty: u8, len: usize) {
        self.byte(ty);
        if len < 255 {
            self.byte(len as u8);
        } else {
            self.byte(255);
            self.bytes(&(len as u16).to_be_bytes());
        }
    }

    fn value(&mut self, ty: u8, value: &[u8]) {
        self.header(ty, value.len());
        self.bytes(value);
    }

    fn addresses(&mut self, list: &[Ipv6Addr]) {
        list.iter().for_each(|address| self.bytes(&address.octets()));
    }

    fn connectivity(&mut self, c: &Connectivity) {
        let late = c.rx_off_child_buffer_size.zip(c.rx_off_child_datagram_count);
        self.header(4, if late.is_some() { 10 } else { 7 });
        self.byte((c.parent_priority as u8 & 3) << 6);
        self.bytes(&[c.link_quality_3, c.link_quality_2, c.link_quality_1, c.leader_cost, c.id_sequence, c.active_routers]);
        if let Some((size, count)) = late {
            self.bytes(&size.to_be_bytes());
            self.byte(count);
        }
    }

    fn route64(&mut self, r: &Route64) {
        self.header(5, 9 + r.route_data.len());
        self.byte(r.id_sequence);
        self.bytes(&r.mask);
        for row in &r.route_data {
            self.byte(row.outgoing_link_quality << 6 | row.incoming_link_quality << 4 | row.route_cost);
        }
    }

    fn leader_data(&mut self, l: &LeaderData) {
        self.header(6, 8);
        self.bytes(&l.partition_id.to_be_bytes());
        self.bytes(&[l.weighting, l.data_version, l.stable_data_version, l.router_id]);
    }

    fn has_routes(&mut self, rows: &[HasRouteEntry]) {
        if !rows.is_empty() {
            self.bytes(&[0, rows.len() as u8 * 3]);
        }
        for row in rows {
            self.bytes(&row.rloc16.to_be_bytes());
            self.byte(row.router_preference << 6 | u8::from(row.is_nat64) << 5);
        }
    }

    fn border_routers(&mut self, rows: &[BorderRouterEntry]) {
        if !rows.is_empty() {
            self.bytes(&[4, rows.len() as u8 * 4]);
        }
        for row in rows {
            self.bytes(&row.rloc16.to_be_bytes());
            self.byte(flags(row));
            self.byte(u8::from(row.is_nd_dns) << 7 | u8::from(row.is_dp) << 6);
        }
    }

    fn network_data(&mut self, data: &NetworkData) {
        self.header(7, data.prefixes.iter().map(|prefix| 2 + size(prefix)).sum());
        for prefix in &data.prefixes {
            self.bytes(&[2, size(prefix) as u8, prefix.domain_id, prefix.prefix_bit_length]);
            self.bytes(&prefix.prefix);
            self.has_routes(&prefix.has_route);
            self.border_routers(&prefix.border_routers);
            if let Some(context) = &prefix.six_low_pan_context {
                self.bytes(&[6, 2, u8::from(context.is_compress) << 4 | context.context_id, context.context_length]);
            }
        }
    }

    fn mac_counters(&mut self, c: &MacCounters) {
        self.header(9, 36);
        let first = [c.if_in_unknown_protos, c.if_in_errors, c.if_out_errors, c.if_in_ucast_pkts, c.if_in_broadcast_pkts];
        let last = [c.if_in_discards, c.if_out_ucast_pkts, c.if_out_broadcast_pkts, c.if_out_discards];
        first.iter().chain(&last).for_each(|counter| self.bytes(&counter.to_be_bytes()));
    }

    fn child_table(&mut self, rows: &[ChildTableEntry]) {
        self.header(16, rows.len() * 3);
        for row in rows {
            let bits = u16::from(row.timeout_exponent) << 11 | u16::from(row.incoming_link_quality) << 9 | row.child_id;
            self.bytes(&bits.to_be_bytes());
            self.byte(mode(&row.mode));
        }
    }

    /// Types 0 to 7.
    fn first_fields(&mut self, d: &NetDiagData) {
        d.ext_mac_addr.iter().for_each(|value| self.value(0, value));
        d.mac_addr.iter().for_each(|number| self.value(1, &number.to_be_bytes()));
        d.mode.iter().for_each(|bits| self.value(2, &[mode(bits)]));
        d.timeout.iter().for_each(|number| self.value(3, &number.to_be_bytes()));
        d.connectivity.iter().for_each(|links| self.connectivity(links));
        d.route64.iter().for_each(|routes| self.route64(routes));
        d.leader_data.iter().for_each(|leader| self.leader_data(leader));
        d.network_data.iter().for_each(|data| self.network_data(data));
    }

    /// Types 8 to 30.
    fn last_fields(&mut self, d: &NetDiagData) {
        if let Some(list) = &d.addresses {
            self.header(8, list.len() * 16);
            self.addresses(list);
        }
        d.mac_counters.iter().for_each(|counters| self.mac_counters(counters));
        d.battery_level.iter().for_each(|&level| self.value(14, &[level]));
        d.supply_voltage.iter().for_each(|number| self.value(15, &number.to_be_bytes()));
        d.child_table.iter().for_each(|rows| self.child_table(rows));
        d.channel_pages.iter().for_each(|value| self.value(17, value));
        d.type_list.iter().for_each(|value| self.value(18, value));
        d.eui64.iter().for_each(|id| self.value(23, id));
        for list in d.child_ipv6_addresses.iter().flatten() {
            self.header(30, 2 + list.addresses.len() * 16);
            self.bytes(&list.rloc16.to_be_bytes());
            self.addresses(&list.addresses);
        }
    }
}

fn mode(m: &ModeData) -> u8 {
    u8::from(m.rx_on_when_idle) << 3 | u8::from(!m.is_mtd) << 1 | u8::from(m.requires_full_network_data)
}

fn flags(row: &BorderRouterEntry) -> u8 {
    row.prefix_preference << 6
        | u8::from(row.is_preferred) << 5
        | u8::from(row.is_slaac) << 4
        | u8::from(row.is_dhcp) << 3
        | u8::from(row.is_configure) << 2
        | u8::from(row.is_default_route) << 1
        | u8::from(row.is_on_mesh)
}

/// How many bytes the value of a prefix takes.
fn size(prefix: &PrefixEntry) -> usize {
    let rows = |count: usize, bytes: usize| if count == 0 { 0 } else { 2 + count * bytes };
    let context = if prefix.six_low_pan_context.is_some() { 4 } else { 0 };
    2 + prefix.prefix.len() + rows(prefix.has_route.len(), 3) + rows(prefix.border_routers.len(), 4) + context
}

pub fn write(d: &NetDiagData, out: &mut [u8]) -> u64 {
    let start = out.as_mut_ptr();
    let mut pen = Pen(start);
    pen.first_fields(d);
    pen.last_fields(d);
    unsafe { pen.0.offset_from(start) as u64 }
}

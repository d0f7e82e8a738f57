//! The library's side: its calls under their C names (crates/speed).
use crate::inputs::Input;
use crate::settings;

unsafe extern "C" {
    fn speed_count(s: *const u8, n: usize) -> u64;
    fn speed_last(s: *const u8, n: usize, ty: u8) -> u64;
    fn speed_index(s: *const u8, n: usize, out: *mut u8, room: usize) -> u64;
    fn speed_by_index(d: *const u8, m: usize, x: *const u8, n: usize, ty: u8) -> u64;
    fn speed_rewrite(s: *const u8, n: usize, out: *mut u8, room: usize) -> u64;
    fn speed_unhex(s: *const u8, n: usize, out: *mut u8, room: usize) -> u64;
    fn speed_hex(s: *const u8, n: usize, out: *mut u8, room: usize) -> u64;
    fn speed_address_text(s: *const u8, n: usize, out: *mut u8, room: usize) -> u64;
    fn speed_address_in(s: *const u8, n: usize, out: *mut u8, room: usize) -> u64;
    fn speed_utf8(s: *const u8, n: usize) -> bool;
    fn speed_run(d: *const u8, m: usize, l: *const u8, n: usize, out: *mut u8, room: usize) -> u64;
    fn speed_fold(l: *const u8, n: usize, out: *mut u8, room: usize) -> u64;
    fn speed_mode(s: *const u8, n: usize) -> u64;
    fn speed_network(s: *const u8, n: usize) -> u64;
    fn speed_payload(s: *const u8, n: usize) -> u64;
    fn speed_write(r: *const u8, m: usize, s: *const u8, k: usize, n: u8, out: *mut u8, room: usize) -> u64;
}

pub fn framing(input: &Input, _: &mut [u8]) -> u64 {
    unsafe { speed_count(input.dataset.as_ptr(), input.dataset.len()) }
}

pub fn last_value(input: &Input, _: &mut [u8]) -> u64 {
    unsafe { speed_last(input.dataset.as_ptr(), input.dataset.len(), input.last) }
}

pub fn twelve(input: &Input, _: &mut [u8]) -> u64 {
    let d = &input.settings.dataset;
    settings::twelve(|ty| unsafe { speed_last(d.as_ptr(), d.len(), ty) })
}

pub fn twelve_by_index(input: &Input, _: &mut [u8]) -> u64 {
    let (d, x) = (&input.settings.dataset, &input.settings.index);
    settings::twelve(|ty| unsafe { speed_by_index(d.as_ptr(), d.len(), x.as_ptr(), x.len(), ty) })
}

pub fn index(dataset: &[u8], out: &mut [u8]) -> u64 {
    unsafe { speed_index(dataset.as_ptr(), dataset.len(), out.as_mut_ptr(), out.len()) }
}

pub fn rewrite(input: &Input, out: &mut [u8]) -> u64 {
    unsafe { speed_rewrite(input.dataset.as_ptr(), input.dataset.len(), out.as_mut_ptr(), out.len()) }
}

pub fn hex_in(input: &Input, out: &mut [u8]) -> u64 {
    unsafe { speed_unhex(input.hex.as_ptr(), input.hex.len(), out.as_mut_ptr(), out.len()) }
}

pub fn hex_out(input: &Input, out: &mut [u8]) -> u64 {
    unsafe { speed_hex(input.dataset.as_ptr(), input.dataset.len(), out.as_mut_ptr(), out.len()) }
}

/// A call for each of a list; what they write stands one after another.
fn each<T: AsRef<[u8]>>(list: &[T], call: unsafe extern "C" fn(*const u8, usize, *mut u8, usize) -> u64, out: &mut [u8]) -> u64 {
    list.iter().map(AsRef::as_ref).fold(0, |at, bytes| {
        let rest = &mut out[at as usize..];
        at + unsafe { call(bytes.as_ptr(), bytes.len(), rest.as_mut_ptr(), rest.len()) }
    })
}

pub fn addr_text(input: &Input, out: &mut [u8]) -> u64 {
    each(&input.addresses.bytes, speed_address_text, out)
}

pub fn addr_in(input: &Input, out: &mut [u8]) -> u64 {
    each(&input.addresses.texts, speed_address_in, out)
}

pub fn utf8_ascii(input: &Input, _: &mut [u8]) -> u64 {
    u64::from(unsafe { speed_utf8(input.ascii.as_ptr(), input.ascii.len()) })
}

pub fn utf8_mixed(input: &Input, _: &mut [u8]) -> u64 {
    u64::from(unsafe { speed_utf8(input.mixed.as_ptr(), input.mixed.len()) })
}

pub fn run(input: &Input, out: &mut [u8]) -> u64 {
    let (d, l) = (&input.dataset, &input.list);
    unsafe { speed_run(d.as_ptr(), d.len(), l.as_ptr(), l.len(), out.as_mut_ptr(), out.len()) }
}

pub fn fold(input: &Input, out: &mut [u8]) -> u64 {
    unsafe { speed_fold(input.list.as_ptr(), input.list.len(), out.as_mut_ptr(), out.len()) }
}

pub fn mode(bytes: &[u8]) -> u64 {
    unsafe { speed_mode(bytes.as_ptr(), bytes.len()) }
}

pub fn network_data(bytes: &[u8]) -> u64 {
    unsafe { speed_network(bytes.as_ptr(), bytes.len()) }
}

pub fn payload(bytes: &[u8]) -> u64 {
    unsafe { speed_payload(bytes.as_ptr(), bytes.len()) }
}

/// A record with n of everything; for 0 one with nothing in it.
pub fn write(routes: &[u8], parts: &[u8], n: u8, out: &mut [u8]) -> u64 {
    unsafe { speed_write(routes.as_ptr(), routes.len(), parts.as_ptr(), parts.len(), n, out.as_mut_ptr(), out.len()) }
}

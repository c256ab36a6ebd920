//! Ours, as the crate `probes` exports it.

extern "C" {
    fn probe_read_u16(s: *const u8, s_length: usize, at: usize) -> u16;
    fn probe_read_u32(s: *const u8, s_length: usize, at: usize) -> u32;
    fn probe_write_u16(out: *mut u8, out_length: usize, at: usize, x: u16);
    fn probe_write_u32(out: *mut u8, out_length: usize, at: usize, x: u32);
}

#[inline]
pub fn read_u16(s: &[u8], at: usize) -> u16 {
    unsafe { probe_read_u16(s.as_ptr(), s.len(), at) }
}

#[inline]
pub fn read_u32(s: &[u8], at: usize) -> u32 {
    unsafe { probe_read_u32(s.as_ptr(), s.len(), at) }
}

#[inline]
pub fn write_u16(out: &mut [u8], at: usize, x: u16) {
    unsafe { probe_write_u16(out.as_mut_ptr(), out.len(), at, x) }
}

#[inline]
pub fn write_u32(out: &mut [u8], at: usize, x: u32) {
    unsafe { probe_write_u32(out.as_mut_ptr(), out.len(), at, x) }
}

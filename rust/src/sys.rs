//! The six functions of the library, with the slices as pointer and length. All that is `unsafe` is here.
extern "C" {
    fn station_fresh(board: *mut u8, len: usize) -> u64;
    fn station_check(board: *const u8, len: usize) -> u64;
    fn station_convert(board: *mut u8, len: usize) -> u64;
    fn station_call(board: *mut u8, len: usize, kind: u8, a: u16, b: u16, c: u16, stat: u8, prio: u8) -> u64;
    fn station_start(board: *mut u8, len: usize, timer: *mut u8, timer_len: usize, m: u16, delay: u16) -> u64;
    fn station_tick(board: *mut u8, len: usize, timer: *mut u8, timer_len: usize) -> u64;
}

pub(crate) fn fresh(board: &mut [u8]) -> u64 {
    // SAFETY: the library reads and writes the lent bytes only, any number of them, and keeps no pointer
    unsafe { station_fresh(board.as_mut_ptr(), board.len()) }
}

pub(crate) fn check(board: &[u8]) -> u64 {
    // SAFETY: as above, and it writes nothing
    unsafe { station_check(board.as_ptr(), board.len()) }
}

pub(crate) fn convert(board: &mut [u8]) -> u64 {
    // SAFETY: as above, whatever the bytes are
    unsafe { station_convert(board.as_mut_ptr(), board.len()) }
}

pub(crate) fn call(board: &mut [u8], kind: u8, [a, b, c]: [u16; 3], stat: u8, prio: u8) -> u64 {
    // SAFETY: as above, whatever the bytes and the arguments are
    unsafe { station_call(board.as_mut_ptr(), board.len(), kind, a, b, c, stat, prio) }
}

pub(crate) fn start(board: &mut [u8], timer: &mut [u8], m: u16, delay: u16) -> u64 {
    // SAFETY: as above, and the two do not overlap, as each is borrowed for writing
    unsafe { station_start(board.as_mut_ptr(), board.len(), timer.as_mut_ptr(), timer.len(), m, delay) }
}

pub(crate) fn tick(board: &mut [u8], timer: &mut [u8]) -> u64 {
    // SAFETY: as above
    unsafe { station_tick(board.as_mut_ptr(), board.len(), timer.as_mut_ptr(), timer.len()) }
}

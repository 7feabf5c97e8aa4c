//! A version of the check, the calls, start and tick, and claim's search: in Rust, or in a shared library with the C interface.
//! All that is `unsafe` is here.
use std::ffi::{c_char, c_int, c_void, CString};
use std::mem::transmute;

use model::board::{Board, MsgNo, BOARD_LEN, ON_TIMER, PLACES_AT, RUNNING};
use model::calls::lowest_free;
use model::{Answer, Call};

use crate::tuned;

/// What is asked of a board, and with start and tick of a timer buffer.
#[derive(Clone, Copy)]
pub enum Asked {
    /// The check.
    Check,
    /// The lowest-numbered free message: the search of claim by itself, without the check before it.
    LowestFree,
    /// A call.
    Call(Request),
    /// The start of a timer for a message with a delay.
    Start(u16, u16),
    /// A tick.
    Tick,
}

/// A call by its kind, with its arguments.
#[derive(Clone, Copy)]
#[allow(missing_docs)] // the fields bear the names of the C interface
pub struct Request {
    pub kind: u8,
    pub words: [u16; 3],
    pub stat: u8,
    pub prio: u8,
}

/// Functions of Rust. Answers are packed as the C interface does.
#[derive(Clone, Copy)]
#[allow(missing_docs)] // the fields bear the names of what is asked
pub struct Functions {
    pub check: fn(&[u8]) -> u64,
    pub call: fn(&mut [u8], u8, [u16; 3], u8, u8) -> u64,
    pub start: fn(&mut [u8], &mut [u8], u16, u16) -> u64,
    pub tick: fn(&mut [u8], &mut [u8]) -> u64,
    pub lowest_free: fn(&[u8]) -> u16,
}

type CCheck = unsafe extern "C" fn(*const u8, usize) -> u64;
type CCall = unsafe extern "C" fn(*mut u8, usize, u8, u16, u16, u16, u8, u8) -> u64;
type CStart = unsafe extern "C" fn(*mut u8, usize, *mut u8, usize, u16, u16) -> u64;
type CTick = unsafe extern "C" fn(*mut u8, usize, *mut u8, usize) -> u64;
type CSearch = unsafe extern "C" fn(*const u8, usize) -> u16;

/// Functions of a library. It may have no timer, or no search by itself.
#[derive(Clone, Copy)]
pub struct Library {
    check: CCheck,
    call: CCall,
    start: Option<CStart>,
    tick: Option<CTick>,
    lowest_free: Option<CSearch>,
    boards: Boards,
}

/// A version.
#[derive(Clone, Copy)]
#[allow(missing_docs)]
pub enum Version {
    Rust(Functions),
    C(Library),
}

/// Which boards a library knows.
#[derive(Clone, Copy)]
pub enum Boards {
    /// Byte 1 is zero, and the first ready task runs.
    Old,
    /// Byte 1 names who runs.
    New,
}

/// The package `model`.
pub const PLAIN: Version = Version::Rust(Functions {
    check: plain_check,
    call: plain_call,
    start: plain_start,
    tick: plain_tick,
    lowest_free: plain_lowest_free,
});
/// The module `tuned`.
pub const TUNED: Version = Version::Rust(OF_TUNED);
/// Its functions.
pub const OF_TUNED: Functions =
    Functions { check: tuned::check, call: tuned::call, start: tuned::start, tick: tuned::tick, lowest_free: tuned::lowest_free };

impl Version {
    /// The version in a shared library.
    pub fn open(path: &str) -> Result<Version, String> {
        let name = CString::new(path).map_err(|error| error.to_string())?;
        // SAFETY: the library has no code that runs when it is opened
        let library = unsafe { dlopen(name.as_ptr(), RTLD_NOW) };
        if library.is_null() {
            return Err(format!("{path} cannot be opened"));
        }
        let find = |name: &str| function_of(library, name).ok_or(format!("{path} has no {name}"));
        let (check, call, search) = (find("station_check")?, find("station_call")?, find("timed_lowest_free").ok());
        let (start, tick) = (find("station_start").ok(), find("station_tick").ok());
        // the conversion came with the new boards
        let boards = if find("station_convert").is_ok() { Boards::New } else { Boards::Old };
        // SAFETY: the functions are of the types that crates/station and crates/timed say
        let (check, call) = unsafe { (transmute::<*mut c_void, CCheck>(check), transmute::<*mut c_void, CCall>(call)) };
        // SAFETY: the same
        let start = start.map(|start| unsafe { transmute::<*mut c_void, CStart>(start) });
        // SAFETY: the same
        let tick = tick.map(|tick| unsafe { transmute::<*mut c_void, CTick>(tick) });
        // SAFETY: the same
        let lowest_free = search.map(|search| unsafe { transmute::<*mut c_void, CSearch>(search) });
        Ok(Version::C(Library { check, call, start, tick, lowest_free, boards }))
    }

    /// The board in the form that the version knows.
    pub fn form(self, board: &Board) -> Board {
        let mut board = *board;
        if let Version::C(Library { boards: Boards::Old, .. }) = self {
            board[RUNNING] = 0;
        }
        board
    }

    /// The check.
    #[inline(always)]
    pub fn check(self, board: &[u8]) -> u64 {
        match self {
            Version::Rust(of) => (of.check)(board),
            // SAFETY: the library reads the lent bytes only
            Version::C(of) => unsafe { (of.check)(board.as_ptr(), board.len()) },
        }
    }

    /// The call of a request's kind.
    #[inline(always)]
    pub fn call(self, board: &mut [u8], request: &Request) -> u64 {
        let Request { kind, words: [a, b, c], stat, prio } = *request;
        match self {
            Version::Rust(of) => (of.call)(board, kind, [a, b, c], stat, prio),
            // SAFETY: the library reads and writes the lent bytes only, and keeps no pointer
            Version::C(of) => unsafe { (of.call)(board.as_mut_ptr(), board.len(), kind, a, b, c, stat, prio) },
        }
    }

    /// The start of a timer; nothing where the version has none.
    #[inline(always)]
    pub fn start(self, board: &mut [u8], timer: &mut [u8], message: u16, delay: u16) -> Option<u64> {
        match self {
            Version::Rust(of) => Some((of.start)(board, timer, message, delay)),
            Version::C(of) => of.start.map(|start| {
                // SAFETY: as with a call
                unsafe { start(board.as_mut_ptr(), board.len(), timer.as_mut_ptr(), timer.len(), message, delay) }
            }),
        }
    }

    /// A tick; nothing where the version has no timer.
    #[inline(always)]
    pub fn tick(self, board: &mut [u8], timer: &mut [u8]) -> Option<u64> {
        match self {
            Version::Rust(of) => Some((of.tick)(board, timer)),
            Version::C(of) => of.tick.map(|tick| {
                // SAFETY: as with a call
                unsafe { tick(board.as_mut_ptr(), board.len(), timer.as_mut_ptr(), timer.len()) }
            }),
        }
    }

    /// The lowest-numbered free message, 0 for none; nothing where the version has no search by itself.
    #[inline(always)]
    pub fn lowest_free(self, board: &[u8]) -> Option<u16> {
        match self {
            Version::Rust(of) => Some((of.lowest_free)(board)),
            // SAFETY: the library reads the lent bytes only
            Version::C(of) => of.lowest_free.map(|search| unsafe { search(board.as_ptr(), board.len()) }),
        }
    }

    /// Whatever is asked; nothing where the version cannot be asked it, or not of this board.
    pub fn ask(self, board: &mut [u8], timer: &mut [u8], asked: &Asked) -> Option<u64> {
        if !self.knows(board) {
            return None;
        }
        match *asked {
            Asked::Check => Some(self.check(board)),
            Asked::LowestFree => self.lowest_free(board).map(u64::from),
            Asked::Call(request) => Some(self.call(board, &request)),
            Asked::Start(message, delay) => self.start(board, timer, message, delay),
            Asked::Tick => self.tick(board, timer),
        }
    }

    /// A library without the timer does not know the place of a message on it.
    fn knows(self, board: &[u8]) -> bool {
        let has_timer = !matches!(self, Version::C(Library { tick: None, .. }));
        has_timer || board.len() != BOARD_LEN || !board[PLACES_AT..].contains(&ON_TIMER)
    }
}

/// A function of an open library, by its name.
fn function_of(library: *mut c_void, name: &str) -> Option<*mut c_void> {
    let in_c = CString::new(name).expect("a name without zeros");
    // SAFETY: an open library and a name that ends
    let function = unsafe { dlsym(library, in_c.as_ptr()) };
    (!function.is_null()).then_some(function)
}

#[inline(never)]
fn plain_check(board: &[u8]) -> u64 {
    packed(model::check(board))
}

#[inline(never)]
fn plain_call(board: &mut [u8], kind: u8, [a, b, c]: [u16; 3], stat: u8, prio: u8) -> u64 {
    Call::from_kind(kind, a, b, c, stat, prio).map_or(255, |call| packed(model::step(board, call)))
}

#[inline(never)]
fn plain_start(board: &mut [u8], timer: &mut [u8], message: u16, delay: u16) -> u64 {
    packed(model::start(board, timer, message, delay))
}

#[inline(never)]
fn plain_tick(board: &mut [u8], timer: &mut [u8]) -> u64 {
    packed(model::tick(board, timer))
}

#[inline(never)]
fn plain_lowest_free(board: &[u8]) -> u16 {
    <&Board>::try_from(board).ok().and_then(lowest_free).map_or(0, MsgNo::number)
}

fn packed(answer: Answer) -> u64 {
    match answer {
        Answer::Refused(refusal) => {
            let (rule, record) = refusal.rule().map_or((0, 0), |rule| (rule.number(), rule.record()));
            u64::from(refusal.number()) | u64::from(rule) << 8 | u64::from(record) << 16
        }
        Answer::Accepted { value, running, delivered } => {
            u64::from(value) << 8 | u64::from(running) << 24 | u64::from(delivered) << 40
        }
    }
}

const RTLD_NOW: c_int = 2;

extern "C" {
    fn dlopen(name: *const c_char, how: c_int) -> *mut c_void;
    fn dlsym(library: *mut c_void, name: *const c_char) -> *mut c_void;
}

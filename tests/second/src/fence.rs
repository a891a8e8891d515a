//! Memory that ends where the lent bytes end: a page that may not be touched stands on either side, so a library that
//! reads or writes past what it was lent is caught at once, with the bytes it was given.

use std::ffi::c_void;
use std::ptr::addr_of;

const PAGE: usize = 4096;
/// What stands around lent bytes inside their pages.
const GUARD: usize = 64;
const PATTERN: u8 = 0xA5;

extern "C" {
    fn mmap(at: *mut c_void, length: usize, protection: i32, flags: i32, file: i32, offset: i64) -> *mut c_void;
    fn mprotect(at: *mut c_void, length: usize, protection: i32) -> i32;
    fn sigaction(signal: i32, new: *const SignalAction, old: *mut c_void) -> i32;
    fn write(file: i32, bytes: *const u8, length: usize) -> isize;
    fn _exit(status: i32) -> !;
}

#[repr(C)]
struct SignalAction {
    handler: extern "C" fn(i32),
    mask: [u64; 16],
    flags: i32,
    restorer: usize,
}

pub struct Fence {
    pages: *mut u8,
    room: usize,
    /// The lent bytes now: their place and length.
    lent: (usize, usize),
}

impl Fence {
    /// Room for at least `room` bytes.
    pub fn new(room: usize) -> Fence {
        let room = room.div_ceil(PAGE) * PAGE;
        // SAFETY: a fresh private mapping (3: read and write, 0x22: private and of no file); its first and last page are
        // then closed (0: no access).
        let pages = unsafe {
            let all = mmap(std::ptr::null_mut(), room + 2 * PAGE, 3, 0x22, -1, 0);
            assert!(all as isize != -1, "no memory for the fences");
            assert_eq!(mprotect(all, PAGE, 0), 0);
            assert_eq!(mprotect(all.add(PAGE + room), PAGE, 0), 0);
            all.cast::<u8>().add(PAGE)
        };
        Fence { pages, room, lent: (0, 0) }
    }

    /// A copy of the bytes that ends at the closed page behind, or starts at the one before.
    pub fn lend(&mut self, bytes: &[u8], at_front: bool) -> *mut u8 {
        assert!(bytes.len() + GUARD <= self.room, "the fence is too narrow");
        let place = if at_front { 0 } else { self.room - bytes.len() };
        self.lent = (place, bytes.len());
        self.guard().fill(PATTERN);
        self.bytes().copy_from_slice(bytes);
        // SAFETY: place lies in the pages.
        unsafe { self.pages.add(place) }
    }

    /// The lent bytes as they are now.
    pub fn bytes(&mut self) -> &mut [u8] {
        // SAFETY: the lent bytes lie in the pages, which nobody else holds.
        unsafe { std::slice::from_raw_parts_mut(self.pages.add(self.lent.0), self.lent.1) }
    }

    /// The open bytes beside the lent ones.
    fn guard(&mut self) -> &mut [u8] {
        let start = if self.lent.0 == 0 { self.lent.1 } else { self.lent.0 - GUARD };
        // SAFETY: as for bytes; lend saw to the room.
        unsafe { std::slice::from_raw_parts_mut(self.pages.add(start), GUARD) }
    }

    /// Whether nothing was written beside the lent bytes.
    pub fn kept(&mut self) -> bool {
        self.guard().iter().all(|byte| *byte == PATTERN)
    }
}

/// What is being compared, for the report of a crash.
static mut PRESENT: [(*const u8, usize); 3] = [(std::ptr::null(), 0); 3];

/// Notes the bytes of the call that comes.
pub fn note(parts: [(*const u8, usize); 3]) {
    // SAFETY: this program has one thread; the handler reads it on that thread.
    unsafe { PRESENT = parts }
}

/// Prints the bytes of a call that crashed, and ends the run as failed.
extern "C" fn crashed(_signal: i32) {
    let say = |text: &[u8]| {
        // SAFETY: write on the bytes of a slice.
        unsafe { write(1, text.as_ptr(), text.len()) };
    };
    say(b"\nDIFFERENCE: the library crashed, or touched memory that it was not lent. The bytes of the call:\n");
    // SAFETY: as in note.
    for (bytes, length) in unsafe { *addr_of!(PRESENT) } {
        say(b"  ");
        for k in 0..length {
            // SAFETY: noted with its length, and still in its fence.
            let byte = unsafe { *bytes.add(k) } as usize;
            say(&[b"0123456789abcdef"[byte / 16], b"0123456789abcdef"[byte % 16]]);
        }
        say(b"\n");
    }
    say(b"0 passed, 1 failed\n");
    // SAFETY: ends the process.
    unsafe { _exit(1) }
}

/// From here on a crash is reported as a difference.
pub fn watch() {
    const ON_OWN_STACK: i32 = 0x0800_0000;
    let action = SignalAction { handler: crashed, mask: [0; 16], flags: ON_OWN_STACK, restorer: 0 };
    // illegal instruction, abort, bus error, division, segment
    for signal in [4, 6, 7, 8, 11] {
        // SAFETY: a handler that only writes and exits.
        unsafe { sigaction(signal, &action, std::ptr::null_mut()) };
    }
}

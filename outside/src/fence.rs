//! Lent memory between pages that nobody may touch.
//!
//! Each arena is a stretch of memory with a forbidden stretch on both sides.
//! Bytes are put right before the end, right behind the beginning, or in the
//! middle; wherever there is a usable byte next to them, known guard bytes are
//! put. A read or write over a forbidden edge stops the program at once, and a
//! write next to the bytes shows in the guards.

use std::os::raw::{c_int, c_void};

/// A whole number of pages on all usual machines.
const PAGE: usize = 65_536;
/// Usable bytes of an arena.
pub const SIZE: usize = 2 * PAGE;
/// Guard bytes on each side.
const GUARD: usize = 64;

const PROT_NONE: c_int = 0;
const PROT_READ: c_int = 1;
const PROT_READ_WRITE: c_int = 3;
const MAP_PRIVATE: c_int = 2;
#[cfg(target_os = "macos")]
const MAP_ANONYMOUS: c_int = 0x1000;
#[cfg(not(target_os = "macos"))]
const MAP_ANONYMOUS: c_int = 0x20;

#[cfg(target_os = "macos")]
const MAP_NORESERVE: c_int = 0x40;
#[cfg(not(target_os = "macos"))]
const MAP_NORESERVE: c_int = 0x4000;

extern "C" {
    fn mmap(
        address: *mut c_void,
        length: usize,
        protection: c_int,
        flags: c_int,
        file: c_int,
        offset: isize,
    ) -> *mut c_void;
    fn mprotect(address: *mut c_void, length: usize, protection: c_int) -> c_int;
    fn munmap(address: *mut c_void, length: usize) -> c_int;
}

/// Where in an arena the bytes lie.
#[derive(Clone, Copy, Debug, PartialEq, Eq)]
pub enum Place {
    /// Away from both forbidden stretches, this many bytes behind the middle.
    Middle(usize),
    /// The last byte is the last usable one.
    End,
    /// The first byte is the first usable one.
    Start,
}

impl Place {
    /// The same or a place a little lower, at which doubles may lie.
    pub fn for_doubles(self) -> Place {
        match self {
            Place::Middle(shift) => Place::Middle(shift / 8 * 8),
            edge => edge,
        }
    }
}

/// Memory between two forbidden stretches.
pub struct Arena {
    whole: *mut u8,
    start: usize,
    length: usize,
}

/// The guard byte at a place of the arena.
fn guard(place: usize) -> u8 {
    (place as u8).wrapping_mul(31) ^ 0xa5
}

impl Arena {
    /// Asks for the memory and forbids the stretches on both sides.
    pub fn new() -> Arena {
        // Safety: a fresh private mapping of our own; the result is checked.
        let whole = unsafe {
            mmap(
                std::ptr::null_mut(),
                SIZE + 2 * PAGE,
                PROT_NONE,
                MAP_PRIVATE | MAP_ANONYMOUS,
                -1,
                0,
            )
        };
        assert!(whole as isize != -1, "no memory for an arena");
        let whole = whole as *mut u8;
        // Safety: the inner stretch lies within the mapping just made.
        let opened = unsafe { mprotect(whole.add(PAGE) as *mut c_void, SIZE, PROT_READ_WRITE) };
        assert_eq!(opened, 0, "an arena can't be opened");
        Arena {
            whole,
            start: 0,
            length: 0,
        }
    }

    /// All usable bytes.
    fn usable(&self) -> &[u8] {
        // Safety: SIZE bytes from here on are readable and live as long as
        // the arena; they are only changed through `usable_mut`, or by a
        // call that was lent a pointer from `lend` or `lend_mut`, and no
        // borrow of ours is alive then.
        unsafe { std::slice::from_raw_parts(self.whole.add(PAGE), SIZE) }
    }

    /// All usable bytes, to be written.
    fn usable_mut(&mut self) -> &mut [u8] {
        // Safety: as in `usable`, and `self` is borrowed for writing.
        unsafe { std::slice::from_raw_parts_mut(self.whole.add(PAGE), SIZE) }
    }

    /// Puts bytes into the arena, with guards around them.
    pub fn load(&mut self, bytes: &[u8], place: Place) {
        assert!(bytes.len() + 2 * GUARD <= SIZE / 2 + PAGE - 256);
        self.length = bytes.len();
        self.start = match place {
            Place::Middle(shift) => 128 + shift % 64,
            Place::End => SIZE - bytes.len(),
            Place::Start => 0,
        };
        let (start, end) = (self.start, self.start + self.length);
        let (low, high) = self.guarded();
        let usable = self.usable_mut();
        for (at, byte) in usable.iter_mut().enumerate().take(start).skip(low) {
            *byte = guard(at);
        }
        usable[start..end].copy_from_slice(bytes);
        for (at, byte) in usable.iter_mut().enumerate().take(high).skip(end) {
            *byte = guard(at);
        }
    }

    /// Forbids or allows writing to all usable bytes.
    pub fn lock(&mut self, locked: bool) {
        let protection = if locked { PROT_READ } else { PROT_READ_WRITE };
        // Safety: the usable stretch of our own mapping.
        let done = unsafe { mprotect(self.whole.add(PAGE) as *mut c_void, SIZE, protection) };
        assert_eq!(done, 0, "an arena can't be locked");
    }

    /// The stretch from the first guard byte to the last.
    fn guarded(&self) -> (usize, usize) {
        let low = self.start.saturating_sub(GUARD);
        (low, (self.start + self.length + GUARD).min(SIZE))
    }

    /// The bytes, to be lent for reading.
    pub fn lend(&self) -> &[u8] {
        &self.usable()[self.start..self.start + self.length]
    }

    /// The same bytes as doubles. They must be just so many, and lie where
    /// doubles may lie.
    pub fn lend_doubles<const COUNT: usize>(&self) -> &[f64; COUNT] {
        let bytes = self.lend();
        let doubles = bytes.as_ptr() as *const [f64; COUNT];
        assert_eq!(bytes.len(), std::mem::size_of::<[f64; COUNT]>());
        assert_eq!(doubles as usize % std::mem::align_of::<f64>(), 0);
        // Safety: length and place are as needed, any bits are a double's,
        // and the bytes live as long as `self`.
        unsafe { &*doubles }
    }

    /// The bytes, to be lent for writing.
    pub fn lend_mut(&mut self) -> &mut [u8] {
        let (start, end) = (self.start, self.start + self.length);
        &mut self.usable_mut()[start..end]
    }

    /// The same as an array. They must be just so many.
    pub fn lend_array_mut<const COUNT: usize>(&mut self) -> &mut [u8; COUNT] {
        let bytes = self.lend_mut();
        bytes.try_into().expect("as many bytes as were put there")
    }

    /// Whether the bytes are these and the guards are as they were set.
    pub fn holds(&self, bytes: &[u8]) -> bool {
        let (low, high) = self.guarded();
        let end = self.start + self.length;
        let usable = self.usable();
        self.lend() == bytes
            && (low..self.start).all(|at| usable[at] == guard(at))
            && (end..high).all(|at| usable[at] == guard(at))
    }
}

impl Default for Arena {
    fn default() -> Arena {
        Arena::new()
    }
}

impl Drop for Arena {
    fn drop(&mut self) {
        // Safety: exactly the mapping made in `new`, which nobody uses now.
        unsafe {
            munmap(self.whole as *mut c_void, SIZE + 2 * PAGE);
        }
    }
}

// Safety: the mapping belongs to the arena alone, so it may move to another
// thread with it.
unsafe impl Send for Arena {}

/// A stretch of memory longer than 32 bits can count, all zeros but for its
/// beginning. Only its first pages ever take up real memory.
#[cfg(target_pointer_width = "64")]
pub struct Huge {
    start: *mut u8,
}

#[cfg(target_pointer_width = "64")]
impl Huge {
    /// Bytes of the stretch.
    pub const SIZE: usize = (1 << 32) + 2 * PAGE;

    /// Asks for the memory; `None` where the system doesn't give so much.
    pub fn new(beginning: &[u8]) -> Option<Huge> {
        // Safety: a fresh private mapping of our own; the result is checked.
        let start = unsafe {
            mmap(
                std::ptr::null_mut(),
                Huge::SIZE,
                PROT_READ,
                MAP_PRIVATE | MAP_ANONYMOUS | MAP_NORESERVE,
                -1,
                0,
            )
        };
        if start as isize == -1 {
            return None;
        }
        // Safety: the first pages of the mapping just made.
        let opened = unsafe { mprotect(start, 2 * PAGE, PROT_READ_WRITE) };
        assert!(opened == 0 && beginning.len() <= PAGE);
        let mut huge = Huge {
            start: start as *mut u8,
        };
        huge.beginning_mut()[..beginning.len()].copy_from_slice(beginning);
        Some(huge)
    }

    /// The writable beginning.
    pub fn beginning_mut(&mut self) -> &mut [u8] {
        // Safety: these pages are writable, and `self` is borrowed for it.
        unsafe { std::slice::from_raw_parts_mut(self.start, 2 * PAGE) }
    }

    /// So many bytes from the start, to be lent for reading.
    pub fn lend(&self, length: usize) -> &[u8] {
        assert!(length <= Huge::SIZE);
        // Safety: all bytes are readable and live as long as `self`.
        unsafe { std::slice::from_raw_parts(self.start, length) }
    }
}

#[cfg(target_pointer_width = "64")]
impl Drop for Huge {
    fn drop(&mut self) {
        // Safety: exactly the mapping made in `new`, which nobody uses now.
        unsafe {
            munmap(self.start as *mut c_void, Huge::SIZE);
        }
    }
}

#[cfg(test)]
mod tests {
    use super::*;

    #[test]
    fn guards_show_a_write() {
        let mut arena = Arena::new();
        for place in [Place::Middle(3), Place::End, Place::Start] {
            arena.load(b"abc", place);
            assert!(arena.holds(b"abc") && !arena.holds(b"abd"));
            arena.lend_mut()[1] = 0;
            assert!(!arena.holds(b"abc"));
            arena.load(b"abc", place);
            let beside = if place == Place::End {
                arena.start - 1
            } else {
                arena.start + 3
            };
            arena.usable_mut()[beside] ^= 1;
            assert!(!arena.holds(b"abc"));
        }
    }

    #[test]
    fn an_array_is_lent_to_be_written() {
        let mut arena = Arena::new();
        arena.load(b"abc", Place::End);
        arena.lend_array_mut::<3>()[2] = b'd';
        assert!(arena.holds(b"abd"));
    }

    #[test]
    fn doubles_are_lent_bit_by_bit() {
        let bits = [0x7ff0_0000_0000_0001, 1 << 63, 0x408f_4000_0000_0000];
        let bytes: Vec<u8> = bits
            .iter()
            .flat_map(|bits: &u64| bits.to_ne_bytes())
            .collect();
        let mut arena = Arena::new();
        for place in [Place::Middle(3), Place::End, Place::Start] {
            arena.load(&bytes, place.for_doubles());
            assert_eq!(arena.lend_doubles::<3>().map(f64::to_bits), bits);
        }
    }
}

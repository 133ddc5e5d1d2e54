//! Buffers beside memory that cannot be touched, and buffers that cannot be written: a forbidden touch ends in a fault.
//!
//! All memory is mapped once for a run and stays mapped to its end. The bytes of an arena are seen at two places, one
//! writable and one read-only, so that no call needs a change of protection.

use std::ffi::{c_char, c_int, c_uint, c_void};
use std::fs::File;
use std::io::Error;
use std::os::fd::{AsRawFd, FromRawFd};
use std::{ptr, slice};

/// The longest buffer that an arena takes.
pub const ARENA_BYTES: usize = 1 << 18;
/// The untouchable bytes behind a far buffer: half of what x86-64 Linux lets a process reserve.
pub const FAR_BYTES: usize = 1 << 46;
/// The untouchable bytes on each side of an arena.
const GUARD_BYTES: usize = 1 << 20;
/// The bytes of a far buffer that can be touched, at most.
const NEAR_BYTES: usize = 1 << 15;

const PROT_NONE: c_int = 0;
const PROT_READ: c_int = 1;
const PROT_WRITE: c_int = 2;
const MAP_SHARED: c_int = 0x01;
const MAP_PRIVATE: c_int = 0x02;
const MAP_FIXED: c_int = 0x10;
const MAP_ANONYMOUS: c_int = 0x20;
const MAP_NORESERVE: c_int = 0x4000;

extern "C" {
    fn memfd_create(name: *const c_char, flags: c_uint) -> c_int;
    fn mmap(
        start: *mut c_void,
        length: usize,
        protection: c_int,
        flags: c_int,
        file: c_int,
        offset: i64,
    ) -> *mut c_void;
}

/// A buffer as a call is told of it.
#[derive(Clone, Copy, Debug)]
pub struct Span {
    pub start: *mut u8,
    pub length: usize,
}

impl Span {
    /// The buffer that is told to start this many bytes later.
    pub fn shifted(self, bytes: isize) -> Span {
        Span { start: self.start.wrapping_offset(bytes), length: self.length }
    }
}

/// On which side of untouchable memory a buffer lies.
#[derive(Clone, Copy, Debug, PartialEq, Eq)]
pub enum Side {
    /// The byte after the buffer's last is untouchable.
    Before,
    /// The byte before the buffer's first is untouchable.
    After,
}

impl Side {
    pub const BOTH: [Side; 2] = [Side::Before, Side::After];
}

/// What a call can do with a buffer.
#[derive(Clone, Copy, Debug, PartialEq, Eq)]
pub enum Access {
    ReadOnly,
    Writable,
}

impl Access {
    pub fn writable_if(condition: bool) -> Access {
        if condition {
            Access::Writable
        } else {
            Access::ReadOnly
        }
    }
}

/// Memory without an address, to be seen at several.
fn memory_file(length: usize) -> File {
    // SAFETY: the name is a string that ends in 0.
    let number = unsafe { memfd_create(c"arena".as_ptr(), 0) };
    assert!(number >= 0, "memfd_create: {}", Error::last_os_error());
    // SAFETY: the number is that of a file which was opened just now and which nothing else owns.
    let file = unsafe { File::from_raw_fd(number) };
    file.set_len(length as u64).expect("memory takes a length");
    file
}

fn assert_mapped(start: *mut c_void, length: usize) {
    assert!(start as isize != -1, "mmap of {length} bytes: {}", Error::last_os_error());
}

/// The start of address space that cannot be touched.
fn reserved(length: usize) -> *mut u8 {
    let flags = MAP_PRIVATE | MAP_ANONYMOUS | MAP_NORESERVE;
    // SAFETY: without MAP_FIXED, only address space that is free is taken.
    let start = unsafe { mmap(ptr::null_mut(), length, PROT_NONE, flags, -1, 0) };
    assert_mapped(start, length);
    start.cast()
}

/// The start of memory of this length, seen after `GUARD_BYTES` untouchable bytes and before `after` of them.
fn guarded(memory: &File, length: usize, protection: c_int, after: usize) -> *mut u8 {
    let view = reserved(GUARD_BYTES + length + after).wrapping_add(GUARD_BYTES);
    // SAFETY: what MAP_FIXED replaces was reserved just now, and nothing else knows of it.
    let start = unsafe { mmap(view.cast(), length, protection, MAP_SHARED | MAP_FIXED, memory.as_raw_fd(), 0) };
    assert_mapped(start, length);
    view
}

/// Memory for one buffer at a time.
pub struct Arena {
    writable: *mut u8,
    read_only: *mut u8,
}

impl Arena {
    pub fn new() -> Arena {
        let memory = memory_file(ARENA_BYTES);
        Arena {
            writable: guarded(&memory, ARENA_BYTES, PROT_READ | PROT_WRITE, GUARD_BYTES),
            read_only: guarded(&memory, ARENA_BYTES, PROT_READ, GUARD_BYTES),
        }
    }

    /// Where a buffer of this length starts in the arena.
    fn offset(length: usize, side: Side) -> usize {
        assert!(length <= ARENA_BYTES, "a buffer of {length} bytes is too long for an arena");
        match side {
            Side::Before => ARENA_BYTES - length,
            Side::After => 0,
        }
    }

    /// Puts the bytes on this side, and returns them as a buffer.
    pub fn put(&mut self, bytes: &[u8], side: Side, access: Access) -> Span {
        let (offset, length) = (Arena::offset(bytes.len(), side), bytes.len());
        // SAFETY: offset and length lie in the arena, and no reference to its bytes outlives a borrow of the arena.
        unsafe { ptr::copy_nonoverlapping(bytes.as_ptr(), self.writable.add(offset), length) };
        let view = if access == Access::Writable { self.writable } else { self.read_only };
        Span { start: view.wrapping_add(offset), length }
    }

    /// The bytes of the buffer of this length on this side.
    pub fn bytes(&self, length: usize, side: Side) -> &[u8] {
        let offset = Arena::offset(length, side);
        // SAFETY: offset and length lie in the arena; writing takes a call of the archive or a mutable borrow.
        unsafe { slice::from_raw_parts(self.writable.add(offset), length) }
    }
}

impl Default for Arena {
    fn default() -> Arena {
        Arena::new()
    }
}

/// Memory for buffers of far lengths, of which only the first bytes, or none, can be touched.
pub struct FarArena {
    near: *mut u8,
}

impl FarArena {
    pub fn new() -> FarArena {
        let memory = memory_file(NEAR_BYTES);
        FarArena { near: guarded(&memory, NEAR_BYTES, PROT_READ | PROT_WRITE, FAR_BYTES) }
    }

    /// Where a buffer starts of which this many bytes can be touched.
    fn offset(touchable: usize) -> usize {
        assert!(touchable <= NEAR_BYTES, "{touchable} bytes are too many for a far arena");
        NEAR_BYTES - touchable
    }

    /// Puts the bytes right before the untouchable ones; they are the first of the returned buffer. Its end may lie beyond
    /// the reserved bytes: then it is for a call alone that never looks at other bytes than these.
    pub fn put(&mut self, bytes: &[u8], length: usize) -> Span {
        let offset = FarArena::offset(bytes.len());
        // SAFETY: the bytes fit between offset and the untouchable bytes, and no reference outlives a borrow.
        unsafe { ptr::copy_nonoverlapping(bytes.as_ptr(), self.near.add(offset), bytes.len()) };
        Span { start: self.near.wrapping_add(offset), length }
    }

    /// The first bytes of the buffer, of which this many can be touched.
    pub fn bytes(&self, touchable: usize) -> &[u8] {
        let offset = FarArena::offset(touchable);
        // SAFETY: the bytes lie before the untouchable ones; writing takes a call of the archive or a mutable borrow.
        unsafe { slice::from_raw_parts(self.near.add(offset), touchable) }
    }

    /// A buffer of which no byte can be touched, this far behind the first untouchable byte. Its end may lie beyond the
    /// reserved bytes: then it is for a call alone that never looks at the buffer.
    pub fn untouchable(&self, distance: usize, length: usize) -> Span {
        assert!(distance < FAR_BYTES, "{distance} is not reserved");
        Span { start: self.near.wrapping_add(NEAR_BYTES + distance), length }
    }
}

impl Default for FarArena {
    fn default() -> FarArena {
        FarArena::new()
    }
}

#[cfg(test)]
mod tests {
    use super::*;
    use std::fs;

    /// The first and the last address of a line of the memory map, and what can be done there.
    fn range_of(line: &str) -> (usize, usize, String) {
        let (range, rest) = line.split_once(' ').expect("a range and more");
        let (first, end) = range.split_once('-').expect("two addresses");
        let address = |text| usize::from_str_radix(text, 16).expect("an address");
        (address(first), address(end) - 1, rest[..2].to_string())
    }

    /// What can be done at the address: "rw", "r-" or "--".
    fn access_at(address: *mut u8) -> String {
        let map = fs::read_to_string("/proc/self/maps").expect("a memory map");
        let mut ranges = map.lines().map(range_of);
        let found = ranges.find(|(first, last, _)| (*first..=*last).contains(&(address as usize)));
        found.expect("the address is mapped").2
    }

    /// What can be done right before the buffer, at its first byte, at its last byte, and right after it.
    fn access_about(span: Span) -> [String; 4] {
        let last = span.length as isize - 1;
        [-1, 0, last, last + 1].map(|place| access_at(span.shifted(place).start))
    }

    #[test]
    fn a_buffer_right_before_untouchable_memory() {
        let mut arena = Arena::new();
        for length in [1, 2, 176, 255, 256, 352, 511, 512, 4_096, 4_097, 65_700, ARENA_BYTES - 1] {
            let bytes = vec![7; length];
            assert_eq!(access_about(arena.put(&bytes, Side::Before, Access::Writable)), ["rw", "rw", "rw", "--"]);
            assert_eq!(access_about(arena.put(&bytes, Side::Before, Access::ReadOnly)), ["r-", "r-", "r-", "--"]);
        }
    }

    #[test]
    fn a_buffer_right_after_untouchable_memory() {
        let mut arena = Arena::new();
        for length in [1, 2, 176, 255, 256, 352, 511, 512, 4_096, 4_097, 65_700, ARENA_BYTES - 1] {
            let bytes = vec![7; length];
            assert_eq!(access_about(arena.put(&bytes, Side::After, Access::Writable)), ["--", "rw", "rw", "rw"]);
            assert_eq!(access_about(arena.put(&bytes, Side::After, Access::ReadOnly)), ["--", "r-", "r-", "r-"]);
        }
    }

    #[test]
    fn an_empty_buffer_touches_untouchable_memory() {
        let mut arena = Arena::new();
        let before = arena.put(&[], Side::Before, Access::Writable);
        let after = arena.put(&[], Side::After, Access::Writable);
        assert_eq!((access_at(before.start), access_at(after.shifted(-1).start)), ("--".into(), "--".into()));
    }

    /// The byte at this place of a buffer, as a call finds it.
    fn byte_at(span: Span, place: usize) -> u8 {
        assert!(place < span.length);
        // SAFETY: the place lies in the buffer, which an arena made.
        unsafe { span.start.add(place).read() }
    }

    /// Writes the byte at this place of a buffer, as a call does.
    fn write_byte(span: Span, place: usize, byte: u8) {
        assert!(place < span.length);
        // SAFETY: the place lies in the buffer, which an arena made writable.
        unsafe { span.start.add(place).write(byte) }
    }

    #[test]
    fn both_views_show_the_same_bytes() {
        let mut arena = Arena::new();
        for side in Side::BOTH {
            let read_only = arena.put(&[1, 2, 3], side, Access::ReadOnly);
            let writable = arena.put(&[4, 5, 6], side, Access::Writable);
            assert_eq!([0, 1, 2].map(|place| byte_at(read_only, place)), [4, 5, 6]);
            write_byte(writable, 2, 9);
            assert_eq!(byte_at(read_only, 2), 9);
            assert_eq!(arena.bytes(3, side), [4, 5, 9]);
        }
    }

    /// One test for all of it: a process can reserve the memory of one far arena only.
    #[test]
    fn a_far_buffer_and_its_first_bytes() {
        let mut arena = FarArena::new();
        let far = arena.put(&[1, 2, 3], FAR_BYTES);
        assert_eq!(
            [0, 2, 3, 1 << 20, 1 << 32, 1 << 45].map(|place| access_at(far.shifted(place).start)),
            ["rw", "rw", "--", "--", "--", "--"]
        );
        assert_eq!(access_at(far.shifted(FAR_BYTES as isize - 1).start), "--");
        write_byte(far, 1, 9);
        assert_eq!(arena.bytes(3), [1, 9, 3]);
        let untouchable = arena.untouchable(0, FAR_BYTES);
        assert_eq!(access_at(untouchable.start), "--");
        assert_eq!(access_at(untouchable.shifted(FAR_BYTES as isize - 1).start), "--");
        assert_eq!(untouchable.start, far.shifted(3).start);
    }
}

//! The memory that this process shares with the bridge, and bytes held in it. All that is unsafe about the
//! bridge is here.

use std::ffi::{c_char, c_int, c_uint, c_void};
use std::ops::{Deref, DerefMut};
use std::sync::{Mutex, OnceLock};

extern "C" {
    fn memfd_create(name: *const c_char, flags: c_uint) -> c_int;
    fn ftruncate(file: c_int, length: i64) -> c_int;
    fn mmap(
        address: *mut c_void,
        length: usize,
        protection: c_int,
        flags: c_int,
        file: c_int,
        offset: i64,
    ) -> *mut c_void;
}

const READ_AND_WRITE: c_int = 3;
const SHARED: c_int = 1;

/// The size of the shared memory. Only what is used of it takes memory.
const BYTES: usize = 1 << 32;

struct Shared {
    /// A file without a name, which child processes inherit.
    file: c_int,
    /// The address of its first byte.
    base: usize,
    pool: Mutex<Pool>,
}

fn shared() -> &'static Shared {
    static SHARED_MEMORY: OnceLock<Shared> = OnceLock::new();
    SHARED_MEMORY.get_or_init(|| unsafe {
        let file = memfd_create(c"m25p".as_ptr(), 0);
        assert!(file >= 0 && ftruncate(file, BYTES as i64) == 0, "no memory that can be shared");
        let base = mmap(std::ptr::null_mut(), BYTES, READ_AND_WRITE, SHARED, file, 0) as usize;
        assert!(base != usize::MAX, "the shared memory can't be mapped");
        Shared { file, base, pool: Mutex::default() }
    })
}

/// What the bridge is told: the file and its size.
pub fn arguments() -> [String; 2] {
    [shared().file.to_string(), BYTES.to_string()]
}

/// Where the bytes lie in the shared memory, if they do.
pub fn place(bytes: &[u8]) -> Option<usize> {
    let address = bytes.as_ptr() as usize;
    address.checked_sub(shared().base).filter(|place| *place < BYTES)
}

/// The parts of the shared memory: each has a power of two as its size, and is used again.
#[derive(Default)]
struct Pool {
    /// Those that are free, by power.
    free: [Vec<usize>; 32],
    /// Behind all parts.
    end: usize,
}

impl Pool {
    fn take(&mut self, power: u32) -> usize {
        self.free[power as usize].pop().unwrap_or_else(|| {
            let start = self.end;
            self.end += 1 << power;
            assert!(self.end <= BYTES, "no more than {BYTES} bytes can be lent at a time");
            start
        })
    }
}

/// Bytes in the shared memory, which a call is lent without a copy.
pub struct Held {
    start: usize,
    power: u32,
    length: usize,
}

impl From<Vec<u8>> for Held {
    fn from(bytes: Vec<u8>) -> Held {
        let length = bytes.len();
        let power = length.max(4_096).next_power_of_two().ilog2();
        let start = shared().pool.lock().unwrap().take(power);
        let mut held = Held { start, power, length };
        held.copy_from_slice(&bytes);
        held
    }
}

impl Drop for Held {
    fn drop(&mut self) {
        shared().pool.lock().unwrap().free[self.power as usize].push(self.start);
    }
}

impl Clone for Held {
    fn clone(&self) -> Held {
        Held::from(self.to_vec())
    }
}

impl PartialEq for Held {
    fn eq(&self, other: &Held) -> bool {
        self[..] == other[..]
    }
}

impl std::fmt::Debug for Held {
    fn fmt(&self, f: &mut std::fmt::Formatter) -> std::fmt::Result {
        self[..].fmt(f)
    }
}

// These bytes own their part of the shared memory, which is mapped as long as this process runs. The bridge
// changes it only during a call, and only what the call is lent to change.

impl Deref for Held {
    type Target = [u8];

    fn deref(&self) -> &[u8] {
        unsafe {
            std::slice::from_raw_parts((shared().base + self.start) as *const u8, self.length)
        }
    }
}

impl DerefMut for Held {
    fn deref_mut(&mut self) -> &mut [u8] {
        unsafe {
            std::slice::from_raw_parts_mut((shared().base + self.start) as *mut u8, self.length)
        }
    }
}

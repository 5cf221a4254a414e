//! Memory between two pages that may not be touched: a read or write past its end, or before its beginning, ends the
//! program at once (by a signal).

use std::cell::RefCell;
use std::collections::HashMap;
use std::os::raw::{c_int, c_long, c_void};

extern "C" {
    fn mmap(
        at: *mut c_void,
        bytes: usize,
        protection: c_int,
        flags: c_int,
        file: c_int,
        offset: i64,
    ) -> *mut c_void;
    fn mprotect(at: *mut c_void, bytes: usize, protection: c_int) -> c_int;
    fn munmap(at: *mut c_void, bytes: usize) -> c_int;
    fn sysconf(name: c_int) -> c_long;
}

// Linux, on x86-64 and on Arm.
const PROT_NONE: c_int = 0;
const PROT_READ: c_int = 1;
const PROT_READ_WRITE: c_int = 3;
const MAP_PRIVATE_ANONYMOUS: c_int = 0x22;
const SC_PAGESIZE: c_int = 30;

/// Pages that are kept for the next who asks for as many; larger ones are given back.
const KEPT_BYTES: usize = 1 << 24;

thread_local! {
    static KEPT: RefCell<HashMap<usize, Vec<Pages>>> = RefCell::new(HashMap::new());
}

/// So many bytes (a multiple of the page), a page without access on either side.
pub struct Pages {
    first: *mut u8,
    bytes: usize,
}

pub fn page_bytes() -> usize {
    unsafe { sysconf(SC_PAGESIZE) as usize }
}

impl Pages {
    /// At least so many bytes, with any content.
    pub fn at_least(bytes: usize) -> Self {
        let page = page_bytes();
        let bytes = ((bytes + page - 1) / page).max(1).next_power_of_two() * page;
        let kept = KEPT.with(|kept| kept.borrow_mut().get_mut(&bytes).and_then(Vec::pop));
        kept.unwrap_or_else(|| Pages::map(bytes))
    }

    fn map(bytes: usize) -> Self {
        let page = page_bytes();
        let first = unsafe {
            let all = mmap(std::ptr::null_mut(), bytes + 2 * page, PROT_NONE, MAP_PRIVATE_ANONYMOUS, -1, 0)
                as *mut u8;
            assert!(all as isize != -1, "no memory for {} bytes", bytes);
            let first = all.add(page);
            assert_eq!(mprotect(first as *mut c_void, bytes, PROT_READ_WRITE), 0);
            first
        };
        Pages { first, bytes }
    }

    pub fn bytes(&self) -> usize {
        self.bytes
    }

    /// All of them. The offset of any item of u8, u32 or u64 from either end keeps it aligned.
    pub fn items<T: Item>(&mut self) -> &mut [T] {
        let length = self.bytes / std::mem::size_of::<T>();
        unsafe { std::slice::from_raw_parts_mut(self.first as *mut T, length) }
    }

    pub fn read_items<T: Item>(&self) -> &[T] {
        let length = self.bytes / std::mem::size_of::<T>();
        unsafe { std::slice::from_raw_parts(self.first as *const T, length) }
    }

    /// Whether they may be written.
    fn protect(&self, protection: c_int) {
        assert_eq!(unsafe { mprotect(self.first as *mut c_void, self.bytes, protection) }, 0);
    }

    pub fn read_only(&self) {
        self.protect(PROT_READ);
    }

    pub fn writable(&self) {
        self.protect(PROT_READ_WRITE);
    }

    fn unmap(&self) {
        let page = page_bytes();
        unsafe { munmap(self.first.sub(page) as *mut c_void, self.bytes + 2 * page) };
    }

    /// Gives them back, or keeps them for the next.
    pub fn release(self) {
        if self.bytes > KEPT_BYTES {
            return self.unmap();
        }
        KEPT.with(|kept| kept.borrow_mut().entry(self.bytes).or_default().push(self));
    }
}

/// Numbers that are lent: any bytes are one.
pub trait Item: Copy + PartialEq + std::fmt::Debug {}
impl Item for u8 {}
impl Item for u32 {}
impl Item for u64 {}

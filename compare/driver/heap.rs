// The original reserves memory for counts that it has not read yet, up to hundreds of gigabytes. Blocks of 64 MB and more are mapped
// without being reserved, so that such a count costs nothing.
use std::alloc::{GlobalAlloc, Layout, System};
use std::ffi::c_void;

unsafe extern "C" {
    fn mmap(at: *mut c_void, len: usize, prot: i32, flags: i32, fd: i32, offset: i64) -> *mut c_void;
    fn munmap(at: *mut c_void, len: usize) -> i32;
}

const LARGE: usize = 64 << 20;

pub struct Lazy;

unsafe impl GlobalAlloc for Lazy {
    unsafe fn alloc(&self, l: Layout) -> *mut u8 {
        if l.size() < LARGE {
            return unsafe { System.alloc(l) };
        }
        // PROT_READ | PROT_WRITE; MAP_PRIVATE | MAP_ANONYMOUS | MAP_NORESERVE
        let p = unsafe { mmap(std::ptr::null_mut(), l.size(), 3, 0x2 | 0x20 | 0x4000, -1, 0) };
        if p as isize == -1 { std::ptr::null_mut() } else { p as *mut u8 }
    }
    unsafe fn dealloc(&self, p: *mut u8, l: Layout) {
        if l.size() < LARGE {
            unsafe { System.dealloc(p, l) }
        } else {
            unsafe { munmap(p as *mut c_void, l.size()) };
        }
    }
}

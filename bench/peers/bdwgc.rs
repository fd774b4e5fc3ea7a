//! bdwgc, which finds its roots in a row of static data and collects when it wants to, from a heap of so many pages on.
use crate::Heap;
use std::ffi::c_void;

unsafe extern "C" {
    fn GC_init();
    fn GC_expand_hp(bytes: usize) -> i32;
    fn GC_malloc(bytes: usize) -> *mut c_void;
    fn GC_malloc_atomic(bytes: usize) -> *mut c_void;
    fn GC_gcollect();
    fn GC_enable_incremental();
    fn GC_set_time_limit(milliseconds: u64);
    fn GC_set_full_freq(collections: i32);
    fn GC_start_incremental_collection();
    fn GC_get_gc_no() -> u64;
}

// No limit to a step of an incremental collection: each is a whole one, its generational mode.
const TIME_UNLIMITED: u64 = 999_999;

static mut ROOTS: [u64; 16] = [0; 16];

pub struct Bdwgc;

impl Heap for Bdwgc {
    const HAS_CYCLES: bool = false;
    const HAS_PARTIAL: bool = true;

    fn open(pages: u32) -> Bdwgc {
        unsafe {
            GC_init();
            GC_expand_hp(pages as usize * 4096);
        }
        Bdwgc
    }

    fn alloc(&mut self, root: usize, words: u64, pointer_free: bool) -> u64 {
        let call = if pointer_free { GC_malloc_atomic } else { GC_malloc };
        let base = unsafe { call(8 * words as usize) } as u64;
        self.set_root(root, base);
        base
    }

    fn set_root(&mut self, root: usize, word: u64) {
        // One thread alone comes here.
        unsafe { std::ptr::write_volatile(&raw mut ROOTS[root], word) }
    }

    fn store(&mut self, at: u64, word: u64) {
        unsafe { *(at as *mut u64) = word }
    }

    fn begin(&mut self) {}

    fn mark_all(&mut self) {}

    fn finish(&mut self) -> u64 {
        self.collect()
    }

    fn sweep_all(&mut self) {}

    fn collect(&mut self) -> u64 {
        unsafe { GC_gcollect() }
        0
    }

    fn keep_marks(&mut self) {
        unsafe {
            GC_enable_incremental();
            GC_set_time_limit(TIME_UNLIMITED);
            GC_set_full_freq(i32::MAX);
        }
    }

    fn collect_new(&mut self) -> u64 {
        unsafe {
            let before = GC_get_gc_no();
            GC_start_incremental_collection();
            assert_eq!(GC_get_gc_no(), before + 1);
        }
        0
    }
}

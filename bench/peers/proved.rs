//! The proved heap, mapped at its own addresses, by the calls of `mpheap.h`: the 16 registers of one mutator are the roots, and words are
//! read and written by pointers.
use crate::Heap;
use std::ffi::c_void;

#[repr(C)]
struct Handle {
    core: *mut c_void,
}

unsafe extern "C" {
    fn mpheap_open_mapped(pages: u32, heap: *mut Handle) -> u32;
    fn mpheap_close(heap: *mut Handle);
    fn mpheap_attach(heap: *mut Handle, slot: *mut u8) -> u32;
    fn mpheap_set(heap: *mut Handle, slot: u8, into: u8, number: u64) -> u32;
    fn mpheap_alloc_base(heap: *mut Handle, slot: u8, into: u8, words: u64, base: *mut u64) -> u32;
    fn mpheap_alloc_pointer_free_base(heap: *mut Handle, slot: u8, into: u8, words: u64, base: *mut u64) -> u32;
    fn mpheap_alloc_many(heap: *mut Handle, slot: u8, into: u8, words: u64, bases: *mut u64, most: usize, count: *mut u64) -> u32;
    fn mpheap_collect(heap: *mut Handle, count: *mut u64) -> u32;
    fn mpheap_begin(heap: *mut Handle) -> u32;
    fn mpheap_begin_partial(heap: *mut Handle) -> u32;
    fn mpheap_roots(heap: *mut Handle) -> u32;
    fn mpheap_mark(heap: *mut Handle, most: u64, count: *mut u64) -> u32;
    fn mpheap_retrace(heap: *mut Handle, count: *mut u64) -> u32;
    fn mpheap_finish(heap: *mut Handle, count: *mut u64) -> u32;
    fn mpheap_sweep(heap: *mut Handle, count: *mut u64) -> u32;
    fn mpheap_written(heap: *mut Handle, address: u64);
}

pub struct Proved {
    heap: Handle,
    marking: bool,
    keeps_marks: bool,
}

// A call that can't be refused here.
fn done(status: u32) {
    assert_eq!(status, 0);
}

impl Heap for Proved {
    const HAS_CYCLES: bool = true;
    const HAS_PARTIAL: bool = true;

    fn open(pages: u32) -> Proved {
        let mut heap = Handle { core: std::ptr::null_mut() };
        let mut slot = 0;
        unsafe {
            done(mpheap_open_mapped(pages, &mut heap));
            done(mpheap_attach(&mut heap, &mut slot));
        }
        Proved { heap, marking: false, keeps_marks: false }
    }

    fn alloc(&mut self, root: usize, words: u64, pointer_free: bool) -> u64 {
        let mut base = 0;
        let call = if pointer_free { mpheap_alloc_pointer_free_base } else { mpheap_alloc_base };
        unsafe { call(&mut self.heap, 0, root as u8, words, &mut base) };
        base
    }

    fn alloc_many(&mut self, root: usize, words: u64, bases: &mut [u64]) {
        let mut count = 0;
        unsafe { done(mpheap_alloc_many(&mut self.heap, 0, root as u8, words, bases.as_mut_ptr(), bases.len(), &mut count)) }
    }

    fn set_root(&mut self, root: usize, word: u64) {
        unsafe { done(mpheap_set(&mut self.heap, 0, root as u8, word)) }
    }

    fn store(&mut self, at: u64, word: u64) {
        unsafe {
            if self.marking || self.keeps_marks {
                mpheap_written(&mut self.heap, at);
            }
            *(at as *mut u64) = word;
        }
    }

    fn begin(&mut self) {
        unsafe { done(mpheap_begin(&mut self.heap)) }
        self.marking = true;
    }

    fn mark_all(&mut self) {
        let mut count = 0;
        unsafe {
            done(mpheap_roots(&mut self.heap));
            loop {
                done(mpheap_mark(&mut self.heap, u64::MAX, &mut count));
                done(mpheap_retrace(&mut self.heap, &mut count));
                if count == 0 {
                    return;
                }
            }
        }
    }

    fn finish(&mut self) -> u64 {
        let mut count = 0;
        unsafe { done(mpheap_finish(&mut self.heap, &mut count)) }
        self.marking = false;
        count
    }

    fn sweep_all(&mut self) {
        let mut count = 1;
        while count != 0 {
            unsafe { done(mpheap_sweep(&mut self.heap, &mut count)) }
        }
    }

    fn collect(&mut self) -> u64 {
        let mut count = 0;
        unsafe { done(mpheap_collect(&mut self.heap, &mut count)) }
        self.marking = false;
        count
    }

    fn keep_marks(&mut self) {
        self.keeps_marks = true;
    }

    fn collect_new(&mut self) -> u64 {
        unsafe { done(mpheap_begin_partial(&mut self.heap)) }
        self.finish()
    }
}

impl Drop for Proved {
    fn drop(&mut self) {
        unsafe { mpheap_close(&mut self.heap) }
    }
}

//! The rows, generic in the heap. Each answers picoseconds a unit, and a number that has to be the same on each heap that does the same.
use crate::Heap;

#[repr(C)]
struct Time {
    seconds: i64,
    nanoseconds: i64,
}

unsafe extern "C" {
    fn clock_gettime(clock: i32, time: *mut Time) -> i32;
}

const THREAD_CLOCK: i32 = 3;
const PAGES: u32 = 1024;
// Roots 0 to 13 are the rows'; with 14 they build.
const BUILDER: usize = 14;

fn now() -> u64 {
    let mut time = Time { seconds: 0, nanoseconds: 0 };
    unsafe { clock_gettime(THREAD_CLOCK, &mut time) };
    time.seconds as u64 * 1_000_000_000 + time.nanoseconds as u64
}

// The picoseconds of the work, by the units that it did.
fn timed(units: u64, work: impl FnOnce()) -> u64 {
    let start = now();
    work();
    (now() - start) * 1000 / units
}

struct Random(u64);

impl Random {
    fn below(&mut self, bound: u64) -> u64 {
        self.0 = self.0.wrapping_mul(6_364_136_223_846_793_005).wrapping_add(1_442_695_040_888_963_407);
        (self.0 >> 33) % bound
    }
}

fn load(at: u64) -> u64 {
    unsafe { *(at as *const u64) }
}

// A cycle at once, whose sweeping is left to the allocations that follow where the heap leaves it.
fn cycle<H: Heap>(heap: &mut H) -> u64 {
    if H::HAS_CYCLES {
        heap.begin();
    }
    heap.finish()
}

// Objects of so many words in a list, kept by a root; their bases.
fn list<H: Heap>(heap: &mut H, root: usize, objects: u64, words: u64) -> Vec<u64> {
    let mut bases = Vec::with_capacity(objects as usize);
    heap.set_root(root, 0);
    let mut last = 0;
    for _ in 0..objects {
        let base = heap.alloc(BUILDER, words, false);
        heap.store(base, last);
        heap.set_root(root, base);
        last = base;
        bases.push(base);
    }
    heap.set_root(BUILDER, 0);
    bases
}

// A binary tree of four-word objects, by levels, which root 0 keeps; its bases.
fn tree<H: Heap>(heap: &mut H, objects: u64) -> Vec<u64> {
    let mut bases: Vec<u64> = Vec::with_capacity(objects as usize);
    for i in 0..objects as usize {
        let base = heap.alloc(BUILDER, 4, false);
        match i {
            0 => heap.set_root(0, base),
            _ => heap.store(bases[(i - 1) / 2] + 8 * (i as u64 % 2), base),
        }
        bases.push(base);
    }
    heap.set_root(BUILDER, 0);
    bases
}

// Objects of two words in a heap that has room for them, none of which is kept.
fn alloc_2<H: Heap>() -> (u64, u64) {
    let mut heap = H::open(PAGES);
    let units = 150_000;
    let cost = timed(units, || {
        for _ in 0..units {
            heap.alloc(0, 2, false);
        }
    });
    (cost, units)
}

// The same, 32 asked for at a time.
fn alloc_2_many<H: Heap>() -> (u64, u64) {
    let mut heap = H::open(PAGES);
    let mut bases = [0; 32];
    let units = 150_016;
    let cost = timed(units, || {
        for _ in 0..units / 32 {
            heap.alloc_many(0, 2, &mut bases);
        }
    });
    (cost, units)
}

// 1 to 40 words, a third of them pointer-free, of which 12 are kept at a time, beside a tree that stays. Where there is no room, some is
// made.
fn alloc_1_to_40<H: Heap>(mut heap: H, live: u64, mut make_room: impl FnMut(&mut H)) -> (u64, u64) {
    tree(&mut heap, live);
    let mut random = Random(1);
    let units = 1_000_000;
    let cost = timed(units, || {
        for i in 0..units {
            let (root, words, pointer_free) = (1 + i as usize % 12, 1 + random.below(40), random.below(3) == 0);
            if heap.alloc(root, words, pointer_free) == 0 {
                make_room(&mut heap);
                heap.alloc(root, words, pointer_free);
            }
        }
    });
    (cost, units)
}

// Room is made by whole cycles.
fn alloc_with_cycles<H: Heap>(pages: u32, live: u64) -> (u64, u64) {
    alloc_1_to_40(H::open(pages), live, |heap| _ = cycle(heap))
}

// Room is made by a whole cycle, and then by cycles that begin with the marks of the last one as long as these free half as many objects. A
// heap that collects when it wants to does as without that.
fn alloc_with_partial_cycles<H: Heap>(pages: u32, live: u64) -> (u64, u64) {
    let mut heap = H::open(pages);
    if H::HAS_CYCLES {
        heap.keep_marks();
    }
    let mut by_whole = None;
    alloc_1_to_40(heap, live, |heap| match by_whole {
        Some(most) if heap.collect_new() >= most / 2 => {}
        _ => by_whole = Some(cycle(heap)),
    })
}

// A heap full of objects of two words of which one in eight stays, collected and filled again: an object, all in all.
fn refill<H: Heap>() -> (u64, u64) {
    let mut heap = H::open(PAGES);
    let objects = 200_000;
    let bases = list(&mut heap, 0, objects, 2);
    // Each eighth leads to the next eighth.
    for i in (8..bases.len()).step_by(8) {
        heap.store(bases[i], bases[i - 8]);
    }
    heap.set_root(0, bases[bases.len() - 8]);
    let kept = objects / 8;
    let cost = timed(objects, || {
        cycle(&mut heap);
        for _ in 0..objects - kept {
            heap.alloc(1, 2, false);
        }
    });
    (cost, kept)
}

// A request for which there is no room, beside pages that all are still to be swept: the request.
fn full<H: Heap>() -> Option<(u64, u64)> {
    if !H::HAS_CYCLES {
        return None;
    }
    let mut heap = H::open(PAGES);
    pending(&mut heap);
    let mut base = 1;
    let cost = timed(1, || base = heap.alloc(1, 16, false));
    Some((cost, base))
}

// Pages full of objects of two words, of which one in eight stays, behind a cycle that leaves all to be swept.
fn pending<H: Heap>(heap: &mut H) {
    let mut last = 0;
    let mut count = 0u64;
    loop {
        let base = heap.alloc(BUILDER, 2, false);
        if base == 0 {
            break;
        }
        if count % 8 == 0 {
            heap.store(base, last);
            heap.set_root(0, base);
            last = base;
        }
        count += 1;
    }
    heap.set_root(BUILDER, 0);
    cycle(heap);
}

// The beginning of a cycle beside 1,024 pages that are still to be swept.
fn begin_pending<H: Heap>() -> Option<(u64, u64)> {
    if !H::HAS_CYCLES {
        return None;
    }
    let mut heap = H::open(PAGES);
    pending(&mut heap);
    Some((timed(1, || heap.begin()), 0))
}

// 200,000 objects of two words, of which one in eight stays, forgotten and swept, without the marking: an object.
fn forget_and_sweep<H: Heap>() -> Option<(u64, u64)> {
    if !H::HAS_CYCLES {
        return None;
    }
    let mut heap = H::open(PAGES);
    let bases = list(&mut heap, 0, 200_000, 2);
    for i in (8..bases.len()).step_by(8) {
        heap.store(bases[i], bases[i - 8]);
    }
    heap.set_root(0, bases[bases.len() - 8]);
    heap.begin();
    heap.mark_all();
    let mut gone = 0;
    let cost = timed(200_000, || {
        gone = heap.finish();
        heap.sweep_all();
    });
    Some((cost, gone))
}

// A full collection of a tree, all of which stays: an object.
fn collect<H: Heap>(objects: u64) -> (u64, u64) {
    let mut heap = H::open(PAGES);
    let bases = tree(&mut heap, objects);
    heap.collect();
    let cost = timed(3 * objects, || {
        for _ in 0..3 {
            heap.collect();
        }
    });
    (cost, u64::from(load(bases[0] + 8) == bases[1]))
}

// The end of a cycle whose marking was done, after so many stores to random objects of 100,000.
fn pause<H: Heap>(stores: u64) -> Option<(u64, u64)> {
    if !H::HAS_CYCLES {
        return None;
    }
    let mut heap = H::open(PAGES);
    let bases = tree(&mut heap, 100_000);
    heap.begin();
    heap.mark_all();
    let mut random = Random(stores);
    for _ in 0..stores {
        let base = bases[random.below(100_000) as usize];
        heap.store(base + 16, base);
    }
    let mut gone = 0;
    Some((timed(1, || gone = heap.finish()), gone))
}

// 1,000 objects of two words come beside 100,000 old ones, and one in ten of them stays; then a collection, full or from the marks of the
// last one. A round, all in all.
fn collect_beside_new<H: Heap>(is_partial: bool) -> Option<(u64, u64)> {
    if is_partial && !H::HAS_PARTIAL {
        return None;
    }
    let mut heap = H::open(PAGES);
    if is_partial {
        heap.keep_marks();
    }
    list(&mut heap, 0, 100_000, 2);
    heap.collect();
    let mut kept = 0;
    let rounds = 10;
    let cost = timed(rounds, || {
        for _ in 0..rounds {
            for i in 0..1000 {
                let base = heap.alloc(1, 2, false);
                if i % 10 == 0 {
                    heap.store(base, kept);
                    heap.set_root(2, base);
                    kept = base;
                }
            }
            match is_partial {
                true => heap.collect_new(),
                false => heap.collect(),
            };
        }
    });
    let mut there = 0;
    while kept != 0 {
        kept = load(kept);
        there += 1;
    }
    Some((cost, there))
}

/// The row of this name; none where there is no such row on this heap.
pub fn run<H: Heap>(row: &str) -> Option<(u64, u64)> {
    match row {
        "alloc_2" => Some(alloc_2::<H>()),
        "alloc_2_many" => Some(alloc_2_many::<H>()),
        "alloc_1_to_40" => Some(alloc_with_cycles::<H>(PAGES, 1)),
        "alloc_on_64" => Some(alloc_with_cycles::<H>(64, 2_500)),
        "alloc_on_64_partial" if H::HAS_PARTIAL => Some(alloc_with_partial_cycles::<H>(64, 2_500)),
        "alloc_as_large" => Some(alloc_with_cycles::<H>(471, 2_500)),
        "alloc_on_256" => Some(alloc_with_cycles::<H>(256, 10_000)),
        "alloc_on_1024" => Some(alloc_with_cycles::<H>(1_024, 40_000)),
        "alloc_on_4096" => Some(alloc_with_cycles::<H>(4_096, 160_000)),
        "refill" => Some(refill::<H>()),
        "full" => full::<H>(),
        "begin_pending" => begin_pending::<H>(),
        "forget_and_sweep" => forget_and_sweep::<H>(),
        "collect_10000" => Some(collect::<H>(10_000)),
        "collect_100000" => Some(collect::<H>(100_000)),
        "full_beside_1000_new" => collect_beside_new::<H>(false),
        "partial_beside_1000_new" => collect_beside_new::<H>(true),
        "pause_0" => pause::<H>(0),
        "pause_10" => pause::<H>(10),
        "pause_100" => pause::<H>(100),
        "pause_1000" => pause::<H>(1_000),
        _ => None,
    }
}

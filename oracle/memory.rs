//! Stack and heap that a call takes, on both sides: the largest over the rings.
//! The stack below the caller is painted before a call and read after it; the
//! heap is counted by the allocator.

use crate::blocks::Jobs;
use crate::call::{divide, NodeList, UNTOUCHED};
use crate::forms::{line, CELL_PLACES, NODE_PLACES};
use crate::job::Job;
use crate::library::{call, cell_image, node_image};
use std::alloc::{GlobalAlloc, Layout, System};
use std::sync::atomic::{AtomicUsize, Ordering::Relaxed};

struct Counting;

static NOW: AtomicUsize = AtomicUsize::new(0);
static PEAK: AtomicUsize = AtomicUsize::new(0);

unsafe impl GlobalAlloc for Counting {
    unsafe fn alloc(&self, layout: Layout) -> *mut u8 {
        let now = NOW.fetch_add(layout.size(), Relaxed) + layout.size();
        PEAK.fetch_max(now, Relaxed);
        System.alloc(layout)
    }

    unsafe fn dealloc(&self, place: *mut u8, layout: Layout) {
        NOW.fetch_sub(layout.size(), Relaxed);
        System.dealloc(place, layout);
    }
}

#[global_allocator]
static COUNTING: Counting = Counting;

/// Bytes of stack that are painted, and those left to the painter itself.
const PAINTED: usize = 1 << 18;
const OWN: usize = 512;
const PAINT: u8 = 0xA5;

/// Paints the stack below the caller and answers where it ends.
#[inline(never)]
fn paint() -> usize {
    let here = 0u8;
    let top = std::ptr::addr_of!(here) as usize;
    for place in top - PAINTED..top - OWN {
        // Stack of this thread that no living frame uses.
        unsafe { std::ptr::write_volatile(place as *mut u8, PAINT) };
    }
    top
}

/// Bytes from the lowest that is changed up to `top`.
#[inline(never)]
fn changed(top: usize) -> usize {
    let is_paint = |place: &usize| unsafe { std::ptr::read_volatile(*place as *const u8) } == PAINT;
    let lowest = (top - PAINTED..top - OWN).find(|place| !is_paint(place));
    top - lowest.unwrap_or(top)
}

/// Stack and heap of one run.
#[inline(never)]
fn measured(work: &mut dyn FnMut()) -> (usize, usize) {
    let top = paint();
    let before = NOW.load(Relaxed);
    PEAK.store(before, Relaxed);
    work();
    let heap = PEAK.load(Relaxed) - before;
    (changed(top), heap)
}

/// In a thread of its own, whose stack is mapped whole.
pub fn peaks(bytes: &[u8]) -> String {
    std::thread::scope(|scope| {
        scope
            .spawn(|| both(bytes))
            .join()
            .expect("the calls end well")
    })
}

fn both(bytes: &[u8]) -> String {
    let jobs: Vec<Job> = Jobs::new(bytes).flatten().collect();
    let mut out = String::new();
    let (stack, heap) = largest(&jobs, &rust);
    line(
        &mut out,
        format_args!("rust    stack {stack} heap {heap} bytes"),
    );
    let (stack, heap) = largest(&jobs, &library);
    line(
        &mut out,
        format_args!("library stack {stack} heap {heap} bytes"),
    );
    out
}

fn largest(jobs: &[Job], side: &dyn Fn(&Job) -> (usize, usize)) -> (usize, usize) {
    let mut most = (0, 0);
    for job in jobs {
        let (stack, heap) = side(job);
        most = (most.0.max(stack), most.1.max(heap));
    }
    most
}

fn rust(job: &Job) -> (usize, usize) {
    let mut list = NodeList::empty(NODE_PLACES);
    let mut cells = [UNTOUCHED; CELL_PLACES];
    measured(&mut || drop(divide(job, &mut list, &mut cells, 0)))
}

fn library(job: &Job) -> (usize, usize) {
    let mut image = node_image(&NodeList::empty(NODE_PLACES), 0);
    let mut cells = cell_image(CELL_PLACES, 0);
    measured(&mut || {
        call(job, image.lent(0, &mut cells, 0));
    })
}

//! No call allocates.
use std::alloc::{GlobalAlloc, Layout, System};
use std::cell::Cell;
use wipturay::{Bits, Frame, Link, Report, Request, SsiType, TdmaTime, TetraAddress};

thread_local! {
    static ALLOCATIONS: Cell<usize> = const { Cell::new(0) };
}

/// The system's allocator, with a count for each thread.
struct Counting;

// SAFETY: both go to the system's allocator as they are.
unsafe impl GlobalAlloc for Counting {
    unsafe fn alloc(&self, layout: Layout) -> *mut u8 {
        ALLOCATIONS.with(|count| count.set(count.get() + 1));
        unsafe { System.alloc(layout) }
    }

    unsafe fn dealloc(&self, pointer: *mut u8, layout: Layout) {
        unsafe { System.dealloc(pointer, layout) }
    }
}

#[global_allocator]
static COUNTING: Counting = Counting;

/// How many allocations something makes.
fn allocations(f: impl FnOnce()) -> usize {
    let before = ALLOCATIONS.get();
    f();
    ALLOCATIONS.get() - before
}

#[test]
fn a_link_is_allocated_once_and_its_calls_allocate_nothing() {
    let mut link = None;
    assert_eq!(allocations(|| link = Some(Link::new())), 1);
    let mut link = link.unwrap();
    let radio = TetraAddress::new(1, SsiType::Issi).unwrap();
    let request = Request {
        fcs_flag: true,
        ..Request::new(radio, 0, Bits::new(&[0xff; 325], 2_595).unwrap())
    };
    let ack = Frame::new(radio, 1, Bits::new(&[0b00110_000], 5).unwrap());
    let made = allocations(|| {
        link.start(1, 1).unwrap();
        link.tick_start(TdmaTime { h: 0, m: 1, f: 1, t: 1 }).unwrap();
        link.data_request(&request).unwrap();
        link.unitdata_request(&Request { receipt: 1, ..request }).unwrap();
        assert_eq!(link.tick_end().unwrap().count(), 2);
        link.report(0, Report::Transmitted).unwrap();
        link.tick_end().unwrap();
        link.frame(&ack).unwrap();
        link.release(0).unwrap();
        assert_eq!(link.call(&[]).unwrap_err().number(), 2);
    });
    assert_eq!(made, 0);
}

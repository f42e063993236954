//! An allocator that refuses one request of its thread, and what asks a call with each of its requests refused.
use lodvarn::Error;
use std::alloc::{GlobalAlloc, Layout, System};
use std::cell::Cell;
use std::panic::{catch_unwind, AssertUnwindSafe};
use std::ptr::null_mut;

thread_local! {
    // After how many more requests of this thread one is refused; 0 for none. And the largest request.
    static REFUSED: Cell<usize> = const { Cell::new(0) };
    static LARGEST: Cell<usize> = const { Cell::new(0) };
}

struct Refusing;

#[global_allocator]
static ALLOCATOR: Refusing = Refusing;

fn is_refused(size: usize) -> bool {
    LARGEST.with(|largest| largest.set(largest.get().max(size)));
    REFUSED.with(|left| left.replace(left.get().saturating_sub(1))) == 1
}

// SAFETY: each request goes to the system's allocator, or gets a null pointer.
unsafe impl GlobalAlloc for Refusing {
    unsafe fn alloc(&self, layout: Layout) -> *mut u8 {
        if is_refused(layout.size()) {
            return null_mut();
        }
        unsafe { System.alloc(layout) }
    }

    unsafe fn dealloc(&self, at: *mut u8, layout: Layout) {
        unsafe { System.dealloc(at, layout) }
    }

    unsafe fn realloc(&self, at: *mut u8, layout: Layout, size: usize) -> *mut u8 {
        if is_refused(size) {
            return null_mut();
        }
        unsafe { System.realloc(at, layout, size) }
    }
}

/// Makes a call with its n-th request refused. Returns whether it has so many, too.
pub fn with_refused<A>(n: usize, call: impl FnOnce() -> A) -> (A, bool) {
    REFUSED.with(|left| left.set(n));
    let answer = call();
    (answer, REFUSED.with(|left| left.replace(0)) == 0)
}

/// Makes a call on what is made anew each time, with its first request refused, then its second, until none is. It must
/// say so each time, and succeed the next time. Returns how many requests it has.
pub fn refuse<T, A>(
    what: &str,
    made: impl Fn() -> T,
    call: impl Fn(&mut T) -> Result<A, Error>,
    see: impl Fn(&mut T),
) -> usize {
    for n in 1.. {
        let mut one = made();
        let (answer, was_refused) = with_refused(n, || call(&mut one));
        let wanted = was_refused.then_some(Error::NoMemory);
        assert_eq!(answer.err(), wanted, "{what}, request {n}");
        if !was_refused {
            return n - 1;
        }
        see(&mut one);
        assert!(call(&mut one).is_ok(), "{what}, after request {n}");
    }
    unreachable!("each call ends")
}

/// The error that a call panics with.
pub fn error_of<A>(call: impl FnOnce() -> A) -> Result<A, Error> {
    catch_unwind(AssertUnwindSafe(call)).map_err(|said| {
        let said = said.downcast::<String>().expect("a text is said");
        assert_eq!(*said, "out of memory");
        Error::NoMemory
    })
}

/// The largest request of a call, in bytes.
pub fn largest_of(call: impl FnOnce()) -> usize {
    LARGEST.with(|largest| largest.set(0));
    call();
    LARGEST.with(Cell::get)
}

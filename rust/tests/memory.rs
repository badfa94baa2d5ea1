//! Want of memory is an answer, also where Rust's own allocator has none.

use rdfax::{Error, Options, Page};
use std::alloc::{GlobalAlloc, Layout, System};
use std::cell::Cell;
use std::ptr;

thread_local! {
    /// Each request of the thread is refused while this is set.
    static REFUSES: Cell<bool> = const { Cell::new(false) };
}

struct Refusing;

// SAFETY: it is the system's allocator, or refuses.
unsafe impl GlobalAlloc for Refusing {
    unsafe fn alloc(&self, layout: Layout) -> *mut u8 {
        if REFUSES.with(Cell::get) {
            return ptr::null_mut();
        }
        System.alloc(layout)
    }

    unsafe fn dealloc(&self, at: *mut u8, layout: Layout) {
        System.dealloc(at, layout)
    }
}

#[global_allocator]
static ALLOCATOR: Refusing = Refusing;

fn refused<T>(call: impl FnOnce() -> T) -> T {
    REFUSES.with(|refuses| refuses.set(true));
    let answer = call();
    REFUSES.with(|refuses| refuses.set(false));
    answer
}

#[test]
fn no_memory_for_what_is_answered() {
    let text = r#"<html><p property="dc:title">Anvil</p></html>"#;
    let mut page = Page::quads("http://h.example/d", &Options::default()).unwrap();
    page.feed(text.as_bytes()).unwrap();
    let mut quads = page.finish().unwrap().into_quads();
    assert_eq!(refused(|| quads.next()), Some(Err(Error::NoMemory)));
    assert_eq!(quads.next(), None);
    let mut page = Page::items("http://h.example/d", Default::default()).unwrap();
    page.feed(text.as_bytes()).unwrap();
    let mut finished = page.finish().unwrap();
    assert_eq!(refused(|| finished.text()), Err(Error::NoMemory));
    assert_eq!(finished.text().as_deref(), Ok("{\"items\":[]}\n"));
}

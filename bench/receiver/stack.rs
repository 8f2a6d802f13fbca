//! How much stack one call takes: a thread runs on memory with a pattern, and
//! the lowest octet that changed tells how deep the stack was.

use crate::cases::Case;
use crate::hosts::open;
use std::ffi::c_void;

/// Above what any call here takes; a multiple of the page.
const ROOM: usize = 1 << 20;
const PATTERN: u8 = 0xA5;

/// `pthread_attr_t` has 56 octets on x86-64 and 64 at most elsewhere.
#[repr(C, align(16))]
struct Attributes([u8; 64]);

extern "C" {
    fn pthread_attr_init(attributes: *mut Attributes) -> i32;
    fn pthread_attr_setstack(attributes: *mut Attributes, lowest: *mut c_void, size: usize) -> i32;
    fn pthread_create(
        thread: *mut usize,
        attributes: *const Attributes,
        run: extern "C" fn(*mut c_void) -> *mut c_void,
        argument: *mut c_void,
    ) -> i32;
    fn pthread_join(thread: usize, result: *mut *mut c_void) -> i32;
}

/// What the thread does, and where its own frame stands.
struct Work<'a> {
    call: &'a mut dyn FnMut(),
    top: usize,
}

#[repr(C, align(4096))]
#[derive(Clone, Copy)]
struct Page([u8; 4096]);

/// The octets that a way takes for the last message; none if no thread started.
pub fn of(way: usize, case: &Case) -> Option<usize> {
    let mut host = open(way, case);
    let (last, before) = case.messages.split_last()?;
    before.iter().for_each(|octets| host.offer(octets));
    depth(&mut || host.offer(last))
}

/// The octets below the frame that makes the call.
pub fn depth(call: &mut dyn FnMut()) -> Option<usize> {
    let mut pages = vec![Page([PATTERN; 4096]); ROOM / 4096];
    let lowest = pages.as_mut_ptr();
    let mut work = Work { call, top: 0 };
    let mut attributes = Attributes([0; 64]);
    let mut thread = 0;
    // The pages and the work outlive the thread, which is joined here.
    let ran = unsafe {
        pthread_attr_init(&mut attributes) == 0
            && pthread_attr_setstack(&mut attributes, lowest.cast(), ROOM) == 0
            && pthread_create(&mut thread, &attributes, enter, (&raw mut work).cast()) == 0
            && pthread_join(thread, std::ptr::null_mut()) == 0
    };
    let untouched = pages
        .iter()
        .flat_map(|page| page.0)
        .take_while(|octet| *octet == PATTERN)
        .count();
    ran.then(|| work.top - (lowest as usize + untouched))
}

extern "C" fn enter(argument: *mut c_void) -> *mut c_void {
    let work = unsafe { &mut *argument.cast::<Work>() };
    let marker = 0u8;
    work.top = &raw const marker as usize;
    (work.call)();
    std::ptr::null_mut()
}

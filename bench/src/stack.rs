//! How many bytes of stack some work takes: it runs on a thread whose stack was painted before.

use std::alloc::{alloc, dealloc, handle_alloc_error, Layout};
use std::ffi::{c_int, c_void};
use std::ptr;

/// The thread's whole stack.
const SIZE: usize = 8 << 20;
const PAINT: u8 = 0xC3;

/// pthread_attr_t of 64-bit Linux: 56 bytes.
#[repr(C, align(8))]
struct Attributes([u8; 64]);

extern "C" {
    fn pthread_attr_init(attributes: *mut Attributes) -> c_int;
    fn pthread_attr_setstack(attributes: *mut Attributes, stack: *mut c_void, size: usize)
        -> c_int;
    fn pthread_attr_destroy(attributes: *mut Attributes) -> c_int;
    fn pthread_create(
        thread: *mut usize,
        attributes: *const Attributes,
        routine: extern "C" fn(*mut c_void) -> *mut c_void,
        argument: *mut c_void,
    ) -> c_int;
    fn pthread_join(thread: usize, result: *mut *mut c_void) -> c_int;
}

/// Bytes of stack that the work takes, beyond those of a thread that does nothing.
pub fn bytes_taken(work: &mut dyn FnMut()) -> usize {
    let nothing = touched(&mut || {});
    touched(work).saturating_sub(nothing)
}

extern "C" fn routine(argument: *mut c_void) -> *mut c_void {
    // The argument is the reference that `touched` holds until this thread has ended.
    let work = unsafe { &mut *argument.cast::<&mut (dyn FnMut() + 'static)>() };
    work();
    ptr::null_mut()
}

/// Bytes from the top of the stack down to the lowest byte that a thread doing this work wrote.
fn touched(work: &mut dyn FnMut()) -> usize {
    let layout = Layout::from_size_align(SIZE, 4096).expect("a page's alignment");
    let mut work = work;
    let argument: *mut &mut dyn FnMut() = &mut work;
    // The stack is allocated here, lent to the one thread, and read again only after that thread was joined.
    unsafe {
        let stack = alloc(layout);
        if stack.is_null() {
            handle_alloc_error(layout);
        }
        ptr::write_bytes(stack, PAINT, SIZE);
        let mut attributes = Attributes([0; 64]);
        let mut thread = 0;
        assert_eq!(pthread_attr_init(&mut attributes), 0);
        assert_eq!(
            pthread_attr_setstack(&mut attributes, stack.cast(), SIZE),
            0
        );
        assert_eq!(
            pthread_create(&mut thread, &attributes, routine, argument.cast()),
            0
        );
        assert_eq!(pthread_join(thread, ptr::null_mut()), 0);
        assert_eq!(pthread_attr_destroy(&mut attributes), 0);
        let painted = std::slice::from_raw_parts(stack, SIZE);
        let untouched = painted.iter().take_while(|&&byte| byte == PAINT).count();
        dealloc(stack, layout);
        SIZE - untouched
    }
}

//! A thread on a stack of our own, painted before and looked at after.

use std::ffi::c_void;
use std::ptr::null_mut;

const STACK: usize = 8 << 20;
const ALIGNMENT: usize = 4096;
const PAINT: u8 = 0xa5;

/// pthread_attr_t has 56 bytes on 64-bit Linux.
type Attributes = [u64; 8];

extern "C" {
    fn pthread_attr_init(attributes: *mut Attributes) -> i32;
    fn pthread_attr_setstack(attributes: *mut Attributes, stack: *mut c_void, size: usize) -> i32;
    fn pthread_create(
        thread: *mut usize,
        attributes: *const Attributes,
        start: extern "C" fn(*mut c_void) -> *mut c_void,
        argument: *mut c_void,
    ) -> i32;
    fn pthread_join(thread: usize, result: *mut *mut c_void) -> i32;
    fn pthread_attr_destroy(attributes: *mut Attributes) -> i32;
}

type Call<'a> = &'a (dyn Fn() + Sync);

/// The bytes of stack that the call takes, beyond those of a thread that does nothing.
pub fn stack_of(call: Call) -> usize {
    painted(call) - painted(&|| ())
}

extern "C" fn start(argument: *mut c_void) -> *mut c_void {
    // SAFETY: `painted` passes a reference to its call and waits for the thread
    let call = unsafe { *(argument as *const Call) };
    call();
    null_mut()
}

/// The bytes of a painted stack that a thread with this call has changed, from its end to the farthest.
fn painted(call: Call) -> usize {
    let mut bytes = vec![PAINT; STACK + ALIGNMENT];
    let skipped = bytes.as_ptr().align_offset(ALIGNMENT);
    let stack = &mut bytes[skipped..skipped + STACK];
    let (mut attributes, mut thread): (Attributes, usize) = ([0; 8], 0);
    let argument: *const Call = &call;
    // SAFETY: the stack and the call outlive the thread, which is waited for before either is used again
    unsafe {
        assert_eq!(pthread_attr_init(&mut attributes), 0);
        assert_eq!(pthread_attr_setstack(&mut attributes, stack.as_mut_ptr().cast(), STACK), 0);
        assert_eq!(pthread_create(&mut thread, &attributes, start, argument as *mut c_void), 0);
        assert_eq!(pthread_join(thread, null_mut()), 0);
        pthread_attr_destroy(&mut attributes);
    }
    // a byte written over with the paint itself is missed only at the very end
    let untouched = stack.iter().take_while(|&&byte| std::hint::black_box(byte) == PAINT).count();
    STACK - untouched
}

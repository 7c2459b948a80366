//! How much stack a call needs: it runs on a stack that was painted, and the
//! paint that is left is counted.

use std::ffi::c_void;
use std::mem::MaybeUninit;
use std::ptr;

/// No byte that the calls are known to leave all over their stack.
const PAINT: u8 = 0xa5;
const SIZE: usize = 1 << 20;
const PAGE: usize = 4096;

/// Room for a pthread_attr_t, which has 56 bytes.
type Attributes = MaybeUninit<[u64; 16]>;

extern "C" {
    fn pthread_attr_init(attributes: *mut Attributes) -> i32;
    fn pthread_attr_setstack(attributes: *mut Attributes, stack: *mut c_void, size: usize) -> i32;
    fn pthread_create(
        thread: *mut usize,
        attributes: *const Attributes,
        start: extern "C" fn(*mut c_void) -> *mut c_void,
        argument: *mut c_void,
    ) -> i32;
    fn pthread_join(thread: usize, result: *mut *mut c_void) -> i32;
}

/// The bytes of stack that the call needs beyond an empty one.
pub fn stack_of(call: &mut dyn FnMut()) -> usize {
    touched(call) - touched(&mut || ())
}

/// The bytes of a painted stack that a thread with this call touches.
fn touched(call: &mut dyn FnMut()) -> usize {
    let mut memory = vec![PAINT; SIZE + PAGE];
    let start = memory.as_ptr().align_offset(PAGE);
    let stack = &mut memory[start..start + SIZE];
    run_on(stack, call);
    stack.len() - stack.iter().take_while(|&&byte| byte == PAINT).count()
}

fn run_on(stack: &mut [u8], mut call: &mut dyn FnMut()) {
    let mut attributes = Attributes::uninit();
    let mut thread = 0;
    // The stack and the call outlive the thread, which is waited for.
    unsafe {
        assert_eq!(pthread_attr_init(&mut attributes), 0);
        let size = stack.len();
        assert_eq!(pthread_attr_setstack(&mut attributes, stack.as_mut_ptr().cast(), size), 0);
        let argument = (&raw mut call).cast();
        assert_eq!(pthread_create(&mut thread, &attributes, entry, argument), 0);
        assert_eq!(pthread_join(thread, ptr::null_mut()), 0);
    }
}

extern "C" fn entry(argument: *mut c_void) -> *mut c_void {
    let call = unsafe { &mut *argument.cast::<&mut dyn FnMut()>() };
    call();
    ptr::null_mut()
}

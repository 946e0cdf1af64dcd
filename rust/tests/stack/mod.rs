//! Runs on a stack of a given size, with no access below it, and how much of it a run takes.
use std::ffi::c_void;
use std::ptr::null_mut;

extern "C" {
    fn mmap(at: *mut c_void, len: usize, prot: i32, flags: i32, file: i32, from: i64) -> *mut c_void;
    fn mprotect(at: *mut c_void, len: usize, prot: i32) -> i32;
    fn munmap(at: *mut c_void, len: usize) -> i32;
    fn pthread_attr_init(attr: *mut Attributes) -> i32;
    fn pthread_attr_setstack(attr: *mut Attributes, stack: *mut c_void, size: usize) -> i32;
    fn pthread_attr_destroy(attr: *mut Attributes) -> i32;
    fn pthread_create(
        thread: *mut usize,
        attr: *const Attributes,
        start: extern "C" fn(*mut c_void) -> *mut c_void,
        argument: *mut c_void,
    ) -> i32;
    fn pthread_join(thread: usize, value: *mut *mut c_void) -> i32;
}

/// pthread_attr_t, which has 56 bytes.
#[repr(C, align(8))]
struct Attributes([u8; 64]);

const PAGE: usize = 4096;
const UNTOUCHED: u8 = 0xa5;

/// What the thread runs, and where its stack stands when it begins.
struct Run<'a> {
    run: &'a mut dyn FnMut(),
    top: usize,
}

extern "C" fn start(argument: *mut c_void) -> *mut c_void {
    // SAFETY: `used` hands over its own Run and waits for the thread's end before it looks at it again.
    let run = unsafe { &mut *argument.cast::<Run>() };
    let here = 0u8;
    run.top = &raw const here as usize;
    (run.run)();
    null_mut()
}

/// Runs on a thread with a stack of so many bytes. Answers how many bytes below the thread's first function were
/// written. Where the stack is too small the program ends.
pub fn used(size: usize, run: &mut dyn FnMut()) -> usize {
    let mut run = Run { run, top: 0 };
    // SAFETY: the memory is fresh and stays until the thread has ended; its lowest page has no access. The bytes
    // are looked at only then.
    unsafe {
        let all = mmap(null_mut(), PAGE + size, 3, 0x22, -1, 0);
        assert_ne!(all as isize, -1);
        assert_eq!(mprotect(all, PAGE, 0), 0);
        let stack = all.byte_add(PAGE);
        stack.cast::<u8>().write_bytes(UNTOUCHED, size);
        let (mut attributes, mut thread) = (Attributes([0; 64]), 0);
        assert_eq!(pthread_attr_init(&mut attributes), 0);
        assert_eq!(pthread_attr_setstack(&mut attributes, stack, size), 0);
        assert_eq!(pthread_create(&mut thread, &attributes, start, (&raw mut run).cast()), 0);
        assert_eq!(pthread_join(thread, null_mut()), 0);
        assert_eq!(pthread_attr_destroy(&mut attributes), 0);
        let bytes = std::slice::from_raw_parts(stack.cast::<u8>(), size);
        let lowest = bytes.iter().position(|&b| b != UNTOUCHED).expect("a thread writes on its stack");
        let lowest = stack as usize + lowest;
        assert_eq!(munmap(all, PAGE + size), 0);
        run.top - lowest
    }
}

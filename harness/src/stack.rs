//! How much stack a call uses: it runs on a thread whose stack was painted beforehand, and the
//! deepest byte that lost its paint tells.

use std::alloc::{alloc, dealloc, Layout};
use std::ffi::{c_int, c_void};
use std::ptr::null_mut;

const SIZE: usize = 8 << 20;
const ALIGN: usize = 1 << 16;
const PAINT: u8 = 0xc9;

/// At least as large as the system's own structure.
#[repr(C, align(16))]
struct Attributes([u8; 256]);

type Start = extern "C" fn(*mut c_void) -> *mut c_void;

extern "C" {
    fn pthread_attr_init(attributes: *mut Attributes) -> c_int;
    fn pthread_attr_setstack(attributes: *mut Attributes, low: *mut u8, size: usize) -> c_int;
    fn pthread_attr_destroy(attributes: *mut Attributes) -> c_int;
    fn pthread_create(
        thread: *mut usize,
        attributes: *const Attributes,
        start: Start,
        argument: *mut c_void,
    ) -> c_int;
    fn pthread_join(thread: usize, result: *mut *mut c_void) -> c_int;
}

/// What the thread gets, and its answer.
struct Job<'j> {
    call: &'j mut dyn FnMut(),
    low: *mut u8,
    used: usize,
}

/// The bytes of stack that the call uses. A frame counts as far as it is written.
pub fn stack_use(mut call: impl FnMut()) -> usize {
    let layout = Layout::from_size_align(SIZE, ALIGN).expect("powers of two");
    // Safety: the stack and the job live until the thread has been joined, and nobody else
    // touches them meanwhile.
    unsafe {
        let low = alloc(layout);
        assert!(!low.is_null(), "no memory for a stack");
        low.write_bytes(PAINT, SIZE);
        let mut job = Job {
            call: &mut call,
            low,
            used: 0,
        };
        let argument: *mut Job = &mut job;
        let mut attributes = Attributes([0; 256]);
        let mut thread = 0;
        assert_eq!(pthread_attr_init(&mut attributes), 0);
        assert_eq!(pthread_attr_setstack(&mut attributes, low, SIZE), 0);
        assert_eq!(
            pthread_create(&mut thread, &attributes, start, argument.cast()),
            0
        );
        assert_eq!(pthread_join(thread, null_mut()), 0);
        assert_eq!(pthread_attr_destroy(&mut attributes), 0);
        dealloc(low, layout);
        job.used
    }
}

/// Makes the call and looks for the paint at once: the end of a thread uses some stack too.
extern "C" fn start(argument: *mut c_void) -> *mut c_void {
    // Safety: `stack_use` hands over a job and waits for this thread. The stack is read one
    // byte at a time, as it stands in memory.
    unsafe {
        let job = &mut *argument.cast::<Job>();
        let here = (&raw const job).addr();
        (job.call)();
        let is_painted = |at: &usize| job.low.add(*at).read_volatile() == PAINT;
        let untouched = (0..SIZE).take_while(is_painted).count();
        job.used = here.saturating_sub(job.low.addr() + untouched);
    }
    null_mut()
}

//! How much stack a call touches: it is made on a thread whose stack is ours and painted first, and the count of a call that does
//! nothing is taken off.

use compare::side::{Side, PER_ENTRY, PER_OPERATION};
use plain::file::OPERATIONS;
use std::ffi::{c_int, c_void};

const SIZE: usize = 4 * 1024 * 1024;
const PAINT: u8 = 0xA5;

type Attributes = [u64; 7];
type Body = extern "C" fn(*mut c_void) -> *mut c_void;

extern "C" {
    fn pthread_attr_init(attributes: *mut Attributes) -> c_int;
    fn pthread_attr_setstack(attributes: *mut Attributes, at: *mut c_void, size: usize) -> c_int;
    fn pthread_attr_destroy(attributes: *mut Attributes) -> c_int;
    fn pthread_create(thread: *mut u64, attributes: *const Attributes, body: Body, job: *mut c_void) -> c_int;
    fn pthread_join(thread: u64, result: *mut *mut c_void) -> c_int;
}

#[repr(align(4096))]
struct Page(#[allow(dead_code)] [u8; 4096]);

/// What the thread is to do, with buffers that do not lie on its stack.
struct Job<'a> {
    side: Option<&'a dyn Side>,
    file: &'a [u8],
    results: Vec<u32>,
    log: Vec<u32>,
}

extern "C" fn work(job: *mut c_void) -> *mut c_void {
    // the job outlives the thread, which is joined before it ends
    let job = unsafe { &mut *(job as *mut Job) };
    if let Some(side) = job.side {
        std::hint::black_box(side.run(job.file, &mut job.results, &mut job.log));
    }
    std::ptr::null_mut()
}

fn used(job: &mut Job) -> usize {
    let mut pages: Vec<Page> = (0..SIZE / 4096).map(|_| Page([PAINT; 4096])).collect();
    let at = pages.as_mut_ptr() as *mut c_void;
    let (mut attributes, mut thread) = ([0; 7], 0);
    // the pages and the job live until the thread is joined
    unsafe {
        assert_eq!(pthread_attr_init(&mut attributes), 0);
        assert_eq!(pthread_attr_setstack(&mut attributes, at, SIZE), 0);
        assert_eq!(pthread_create(&mut thread, &attributes, work, job as *mut Job as *mut c_void), 0);
        assert_eq!(pthread_join(thread, std::ptr::null_mut()), 0);
        assert_eq!(pthread_attr_destroy(&mut attributes), 0);
        let bytes = std::slice::from_raw_parts(at as *const u8, SIZE);
        SIZE - bytes.iter().take_while(|b| **b == PAINT).count()
    }
}

/// Bytes of stack that the run of a file touches.
pub fn touched(side: &dyn Side, file: &[u8]) -> usize {
    let job = |side| Job { side, file, results: vec![0; OPERATIONS * PER_OPERATION], log: vec![0; OPERATIONS * PER_ENTRY] };
    let empty = used(&mut job(None));
    used(&mut job(Some(side))).saturating_sub(empty)
}

//! Memory that ends where no byte may be read: a bundle stands right before the fence, or right behind it.
use std::ffi::c_void;

const PAGE: usize = 4096;
const ROOM: usize = 1 << 20;
const READ_AND_WRITE: i32 = 3;
const PRIVATE_AND_ANONYMOUS: i32 = 0x22;

unsafe extern "C" {
    fn mmap(place: *mut c_void, len: usize, access: i32, flags: i32, file: i32, offset: i64) -> *mut c_void;
    fn mprotect(place: *mut c_void, len: usize, access: i32) -> i32;
}

pub struct Fence(&'static mut [u8]);

impl Fence {
    pub fn new() -> Fence {
        unsafe {
            let area = mmap(std::ptr::null_mut(), ROOM + 2 * PAGE, READ_AND_WRITE, PRIVATE_AND_ANONYMOUS, -1, 0);
            assert!(area.addr() != usize::MAX, "no memory");
            assert!(mprotect(area, PAGE, 0) == 0 && mprotect(area.byte_add(PAGE + ROOM), PAGE, 0) == 0, "no fence");
            Fence(std::slice::from_raw_parts_mut(area.byte_add(PAGE).cast(), ROOM))
        }
    }

    /// The same bytes beside a fence; those that do not fit, as they are.
    pub fn hold<'a>(&'a mut self, bytes: &'a [u8], at_end: bool) -> &'a [u8] {
        if bytes.len() > ROOM {
            return bytes;
        }
        let from = if at_end { ROOM - bytes.len() } else { 0 };
        let held = &mut self.0[from..from + bytes.len()];
        held.copy_from_slice(bytes);
        held
    }
}

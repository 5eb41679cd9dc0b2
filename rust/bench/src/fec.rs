//! libfec, Debian's libfec-dev. Its tables are made once, outside the timed part. There cells run the other way: the highest coefficient
//! of a block comes first.

use std::ffi::{c_int, c_uchar, c_void};

use crate::coder::Coder;
use crate::Shape;

extern "C" {
    fn init_rs_char(
        symbol: c_int,
        polynomial: c_int,
        first: c_int,
        step: c_int,
        roots: c_int,
        absent: c_int,
    ) -> *mut c_void;
    fn free_rs_char(coder: *mut c_void);
    fn encode_rs_char(coder: *mut c_void, message: *mut c_uchar, parity: *mut c_uchar);
    fn decode_rs_char(coder: *mut c_void, cells: *mut c_uchar, erased: *mut c_int, count: c_int) -> c_int;
}

pub struct Fec {
    shape: Shape,
    coder: *mut c_void,
    scratch: Vec<u8>,
}

impl Fec {
    pub fn new(shape: Shape) -> Fec {
        let coder = unsafe { init_rs_char(8, 0x11D, shape.b as c_int, 1, shape.r as c_int, 255 - shape.n as c_int) };
        assert!(!coder.is_null());
        Fec {
            shape,
            coder,
            scratch: vec![0; shape.n],
        }
    }

    /// Corrects in place; the number of cells changed, or −1.
    fn decode(coder: *mut c_void, cells: &mut [u8]) -> c_int {
        unsafe { decode_rs_char(coder, cells.as_mut_ptr(), std::ptr::null_mut(), 0) }
    }
}

impl Drop for Fec {
    fn drop(&mut self) {
        unsafe { free_rs_char(self.coder) }
    }
}

impl Coder for Fec {
    fn name(&self) -> &'static str {
        "libfec"
    }

    fn highest_first(&self) -> bool {
        true
    }

    fn write(&mut self, message: &[u8], cells: &mut [u8]) {
        assert_eq!(cells.len(), self.shape.n);
        let (front, parity) = cells.split_at_mut(self.shape.n - self.shape.r);
        front.copy_from_slice(message);
        unsafe { encode_rs_char(self.coder, front.as_mut_ptr(), parity.as_mut_ptr()) }
    }

    fn check(&mut self, cells: &[u8]) -> bool {
        self.scratch.copy_from_slice(cells);
        Fec::decode(self.coder, &mut self.scratch) == 0
    }

    fn correct(&mut self, read: &[u8], out: &mut [u8]) -> Option<bool> {
        assert_eq!(read.len(), self.shape.n);
        out.copy_from_slice(read);
        Some(Fec::decode(self.coder, out) >= 0)
    }

    fn correct_spots(&mut self, read: &[u8], out: &mut [u8]) -> Option<bool> {
        self.correct(read, out)
    }
}

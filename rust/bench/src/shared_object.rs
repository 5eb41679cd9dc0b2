//! The library of another commit, loaded as a shared object while the program runs. Nothing else of the comparison with it is `unsafe`: the caller of
//! `SharedObject::open` vouches that the file is such a library, with the functions of include/tishwabe.h that are named here.

use std::ffi::{c_char, c_int, c_void, CStr, CString};
use std::os::unix::ffi::OsStrExt;
use std::path::Path;

use tishwabe::ffi::Numbers;
use tishwabe::Mode;

use crate::former::Library;

extern "C" {
    fn dlopen(path: *const c_char, flags: c_int) -> *mut c_void;
    fn dlsym(object: *mut c_void, name: *const c_char) -> *mut c_void;
    fn dlerror() -> *const c_char;
}

/// All symbols are bound on loading, none in a call that is timed.
const RTLD_NOW: c_int = 2;

type Check = unsafe extern "C" fn(usize, usize, usize, usize, usize, *const u8, usize, &mut usize) -> usize;
type Correct = unsafe extern "C" fn(
    usize,
    usize,
    usize,
    usize,
    usize,
    *const u8,
    usize,
    *mut u8,
    usize,
    &mut usize,
    &mut usize,
) -> usize;
type Read = unsafe extern "C" fn(
    usize,
    usize,
    usize,
    usize,
    usize,
    *const u8,
    usize,
    *mut u8,
    usize,
    *mut u8,
    usize,
    &mut usize,
    &mut usize,
) -> usize;

/// The functions of a shared object, which stays loaded.
pub struct SharedObject {
    check: Check,
    correct: Correct,
    read: Read,
    read_spots: Read,
}

impl SharedObject {
    pub fn open(path: &Path) -> Result<SharedObject, String> {
        // With a slash in it the path is a file's, and no library is searched for.
        let path = path.canonicalize().map_err(|error| error.to_string())?;
        let path = CString::new(path.as_os_str().as_bytes()).map_err(|error| error.to_string())?;
        unsafe {
            let object = dlopen(path.as_ptr(), RTLD_NOW);
            if object.is_null() {
                return Err(CStr::from_ptr(dlerror()).to_string_lossy().into_owned());
            }
            Ok(SharedObject {
                check: function(object, c"tishwabe_check_block")?,
                correct: function(object, c"tishwabe_correct_block")?,
                read: function(object, c"tishwabe_read_sheet")?,
                read_spots: function(object, c"tishwabe_read_sheet_spots")?,
            })
        }
    }
}

/// The function of this name. `F` must be a function pointer of its type.
unsafe fn function<F>(object: *mut c_void, name: &CStr) -> Result<F, String> {
    let found = dlsym(object, name.as_ptr());
    if found.is_null() {
        return Err(format!("{} is missing", name.to_string_lossy()));
    }
    Ok(std::mem::transmute_copy(&found))
}

impl Library for SharedObject {
    fn check(&self, [n, r, b, limit, depth]: Numbers, read: &[u8]) -> (usize, usize) {
        let mut clean = 0;
        let number = unsafe { (self.check)(n, r, b, limit, depth, read.as_ptr(), read.len(), &mut clean) };
        (number, clean)
    }

    fn correct(&self, [n, r, b, limit, depth]: Numbers, read: &[u8], out: &mut [u8]) -> (usize, usize, usize) {
        let (mut start, mut length) = (0, 0);
        let (from, to) = (read.as_ptr(), out.as_mut_ptr());
        let number = unsafe {
            (self.correct)(
                n,
                r,
                b,
                limit,
                depth,
                from,
                read.len(),
                to,
                out.len(),
                &mut start,
                &mut length,
            )
        };
        (number, start, length)
    }

    fn read(
        &self,
        mode: Mode,
        [n, r, b, limit, depth]: Numbers,
        sheet: &[u8],
        scratch: &mut [u8],
        payload: &mut [u8],
    ) -> (usize, usize, usize) {
        let reader = match mode {
            Mode::Burst => self.read,
            Mode::Spots => self.read_spots,
        };
        let (mut changed, mut place) = (0, 0);
        let number = unsafe {
            reader(
                n,
                r,
                b,
                limit,
                depth,
                sheet.as_ptr(),
                sheet.len(),
                scratch.as_mut_ptr(),
                scratch.len(),
                payload.as_mut_ptr(),
                payload.len(),
                &mut changed,
                &mut place,
            )
        };
        (number, changed, place)
    }
}

//! Another archive, as a shared object that is opened while the program runs: two builds side by side.
#![allow(unsafe_code)]

use super::archive::Functions;
use std::ffi::{c_char, c_int, c_void, CStr, CString};
use std::mem::transmute;
use std::path::Path;

type New = unsafe extern "C" fn(*const u8, usize, usize, *mut usize, usize) -> usize;
type ReadEvent = unsafe extern "C" fn(*const u8, usize, *mut usize, usize, *mut usize, usize, *mut usize, usize) -> usize;

extern "C" {
    fn dlopen(path: *const c_char, how: c_int) -> *mut c_void;
    fn dlsym(object: *mut c_void, name: *const c_char) -> *mut c_void;
    fn dlerror() -> *mut c_char;
}

/// The object's names are bound at once, and seen by nothing else.
const NOW: c_int = 2;

/// The functions of a shared object, which stays open.
pub struct Shared {
    new: New,
    read_event: ReadEvent,
}

impl Shared {
    pub fn open(path: &Path) -> Result<Self, String> {
        // dlopen looks for a path without a `/` elsewhere
        let path = path.canonicalize().map_err(|error| format!("{}: {error}", path.display()))?;
        let path = CString::new(path.into_os_string().into_encoded_bytes()).map_err(|error| error.to_string())?;
        // SAFETY: the path ends with a 0.
        let object = unsafe { dlopen(path.as_ptr(), NOW) };
        if object.is_null() {
            return Err(fault());
        }
        // SAFETY: the functions of these names are those of `include/sporebasket.h`, and so are the types.
        unsafe {
            Ok(Shared {
                new: transmute::<*mut c_void, New>(named(object, c"sporebasket_new")?),
                read_event: transmute::<*mut c_void, ReadEvent>(named(object, c"sporebasket_read_event")?),
            })
        }
    }
}

/// The address of a name in an open object.
fn named(object: *mut c_void, name: &CStr) -> Result<*mut c_void, String> {
    // SAFETY: the object is open, and the name ends with a 0.
    let address = unsafe { dlsym(object, name.as_ptr()) };
    if address.is_null() {
        return Err(fault());
    }
    Ok(address)
}

/// What was wrong with the last call that went wrong.
fn fault() -> String {
    // SAFETY: what is told is null or ends with a 0.
    unsafe {
        let told = dlerror();
        if told.is_null() {
            return String::new();
        }
        CStr::from_ptr(told).to_string_lossy().into_owned()
    }
}

impl Functions for Shared {
    fn make(&self, document: &[u8], settings: usize, state: &mut [usize]) -> usize {
        // SAFETY: pointers and counts are those of slices; the state is lent exclusively.
        unsafe { (self.new)(document.as_ptr(), document.len(), settings, state.as_mut_ptr(), state.len()) }
    }

    fn read(&self, document: &[u8], stack: &mut [usize], state: &mut [usize], answer: &mut [usize]) -> usize {
        // SAFETY: pointers and counts are those of slices; the three that are written to are lent exclusively.
        unsafe {
            (self.read_event)(
                document.as_ptr(),
                document.len(),
                stack.as_mut_ptr(),
                stack.len(),
                state.as_mut_ptr(),
                state.len(),
                answer.as_mut_ptr(),
                answer.len(),
            )
        }
    }
}

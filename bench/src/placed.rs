//! The takes of archives that are linked as shared libraries, at several places: where a short loop stands in its line of 64 bytes decides
//! whether a turn takes one cycle or two, so that one place of each tells little of two archives.

use crate::timing::Take;
use crate::workload::{lent, Workload};
use std::ffi::{c_char, c_int, c_void, CStr, CString};
use zankezurt::State;

extern "C" {
    fn dlopen(name: *const c_char, mode: c_int) -> *mut c_void;
    fn dlsym(library: *mut c_void, name: *const c_char) -> *mut c_void;
}

/// Every name is found at once, and serves the library alone.
const RTLD_NOW: c_int = 2;

/// The archive's calls, as the header has them.
type Version = unsafe extern "C" fn() -> u32;
type Receive = unsafe extern "C" fn(
    *const u8,
    usize,
    *const u8,
    usize,
    *mut u16,
    usize,
    *mut u32,
    usize,
    *mut u8,
    usize,
    *mut u8,
    usize,
    *mut u8,
    usize,
    *mut u16,
    *mut usize,
) -> u8;

pub struct Placed {
    receive: Receive,
}

impl Placed {
    /// Loads a shared library and keeps it. It is of the bindings' version: in another one a call may have other arguments.
    pub fn load(path: &str) -> Placed {
        let path = CString::new(path).expect("a path");
        // the library is the archive, whose code does nothing when it is loaded, and the addresses are those of its functions of these types
        unsafe {
            let library = dlopen(path.as_ptr(), RTLD_NOW);
            assert!(!library.is_null(), "{path:?} can't be loaded");
            let call = |name: &CStr| {
                let call = dlsym(library, name.as_ptr());
                assert!(!call.is_null(), "{path:?} has no {name:?}");
                call
            };
            let version = std::mem::transmute::<*mut c_void, Version>(call(c"zankezurt_version"));
            assert_eq!(version(), zankezurt::VERSION, "the version of {path:?}, and the bindings'");
            Placed { receive: std::mem::transmute::<*mut c_void, Receive>(call(c"zankezurt_receive")) }
        }
    }
}

impl Take for Placed {
    fn take(&self, workload: &mut Workload) -> usize {
        let Workload { encoded, message, buffers, .. } = workload;
        let State { numbers, facts, valuation, verdicts, origin, extent } = lent(buffers);
        let mut detail = 0;
        // each pointer is of the slice whose length follows it, or of one number, and no two overlap
        let refusal = unsafe {
            (self.receive)(
                encoded.as_ptr(),
                encoded.len(),
                message.as_ptr(),
                message.len(),
                numbers.as_mut_ptr(),
                numbers.len(),
                facts.as_mut_ptr(),
                facts.len(),
                valuation.as_mut_ptr(),
                valuation.len(),
                verdicts.as_mut_ptr(),
                verdicts.len(),
                origin.as_mut_ptr(),
                origin.len(),
                extent,
                &mut detail,
            )
        };
        assert_eq!(refusal, 0, "a take");
        detail
    }
}

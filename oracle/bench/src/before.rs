//! An older build of the library, loaded beside the one that is linked, so that both are measured in one run.

use std::ffi::{c_char, c_int, c_void, CStr, CString};
use std::mem::transmute;

use ola::{Answer, Lent, Machine};

#[link(name = "dl")]
extern "C" {
    fn dlopen(file: *const c_char, flags: c_int) -> *mut c_void;
    fn dlsym(library: *mut c_void, name: *const c_char) -> *mut c_void;
    fn dlerror() -> *const c_char;
}

/// Linux's `RTLD_NOW`, without `RTLD_GLOBAL`: so its names stay its own.
const NOW: c_int = 2;

type RunText = unsafe extern "C" fn(
    *const u8,
    usize,
    u64,
    *mut Machine,
    *mut u64,
    usize,
    *mut u64,
    usize,
    *mut u64,
    usize,
    *mut u64,
    usize,
    *mut u64,
    usize,
    *mut Answer,
);

type CheckText = unsafe extern "C" fn(
    *const u8,
    usize,
    *const Machine,
    *const u64,
    usize,
    *const u64,
    usize,
    *const u64,
    usize,
    *const u64,
    usize,
    *const u64,
    usize,
    *mut Answer,
);

pub struct Before {
    run_text: RunText,
    check_text: CheckText,
}

impl Before {
    /// From a shared object with the functions of include/ola.h.
    pub fn load(file: &str) -> Result<Before, String> {
        let path = CString::new(file).map_err(|error| format!("{file}: {error}"))?;
        // SAFETY: the C library's functions; the two functions have the types that include/ola.h gives them.
        unsafe {
            let library = dlopen(path.as_ptr(), NOW);
            if library.is_null() {
                return Err(CStr::from_ptr(dlerror()).to_string_lossy().into_owned());
            }
            let function = |name: &CStr| {
                let address = dlsym(library, name.as_ptr());
                if address.is_null() {
                    return Err(format!("{file} has no {}", name.to_string_lossy()));
                }
                Ok(address)
            };
            Ok(Before {
                run_text: transmute::<*mut c_void, RunText>(function(c"ola_run_text")?),
                check_text: transmute::<*mut c_void, CheckText>(function(c"ola_check_text")?),
            })
        }
    }

    pub fn run_text(&self, text: &[u8], budget: u64, lent: &mut Lent) -> Answer {
        let mut answer = Answer::default();
        let buffers = &mut lent.buffers;
        // SAFETY: as in the bindings: addresses with their lengths, and nothing lent twice.
        unsafe {
            (self.run_text)(
                text.as_ptr(),
                text.len(),
                budget,
                &mut lent.machine,
                buffers.addresses.as_mut_ptr(),
                buffers.addresses.len(),
                buffers.numbers.as_mut_ptr(),
                buffers.numbers.len(),
                buffers.moments.as_mut_ptr(),
                buffers.moments.len(),
                buffers.tape.as_mut_ptr(),
                buffers.tape.len(),
                buffers.output.as_mut_ptr(),
                buffers.output.len(),
                &mut answer,
            );
        }
        answer
    }

    pub fn check_text(&self, text: &[u8], lent: &Lent) -> Answer {
        let mut answer = Answer::default();
        let buffers = &lent.buffers;
        // SAFETY: as above.
        unsafe {
            (self.check_text)(
                text.as_ptr(),
                text.len(),
                &lent.machine,
                buffers.addresses.as_ptr(),
                buffers.addresses.len(),
                buffers.numbers.as_ptr(),
                buffers.numbers.len(),
                buffers.moments.as_ptr(),
                buffers.moments.len(),
                buffers.tape.as_ptr(),
                buffers.tape.len(),
                buffers.output.as_ptr(),
                buffers.output.len(),
                &mut answer,
            );
        }
        answer
    }
}

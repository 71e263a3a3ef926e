//! The parsers of libddcutil and libddccontrol on the same capabilities strings, where the two libraries are
//! installed.
use crate::capabilities::{text, Lent};
use crate::measure::{both, line};
use std::ffi::{c_char, c_int, c_void, CStr, CString};
use std::hint::black_box;
use std::ptr;

const RTLD_NOW: c_int = 2;

extern "C" {
    fn dlopen(file: *const c_char, mode: c_int) -> *mut c_void;
    fn dlsym(library: *mut c_void, name: *const c_char) -> *mut c_void;
    fn free(memory: *mut c_void);
}

/// A function of an installed library, or none.
fn function(file: &CStr, name: &CStr) -> Option<*mut c_void> {
    // SAFETY: the name ends with a zero byte; the library's own start is trusted.
    let library = unsafe { dlopen(file.as_ptr(), RTLD_NOW) };
    if library.is_null() {
        return None;
    }
    // SAFETY: the library is open, and the name ends with a zero byte.
    let f = unsafe { dlsym(library, name.as_ptr()) };
    (!f.is_null()).then_some(f)
}

type DdcutilParse = unsafe extern "C" fn(*const c_char, *mut *mut c_void) -> c_int;
type DdcutilFree = unsafe extern "C" fn(*mut c_void);
type DdccontrolParse = unsafe extern "C" fn(*const c_char, *mut DdccontrolCapabilities, c_int) -> c_int;

#[repr(C)]
struct DdccontrolEntry {
    count: c_int,
    values: *mut u16,
}

#[repr(C)]
struct DdccontrolCapabilities {
    entries: [*mut DdccontrolEntry; 256],
    kind: c_int,
    raw: *mut c_char,
}

/// libddcutil's reading of a string, and what it holds given back.
unsafe fn ddcutil(parse: DdcutilParse, release: DdcutilFree, text: &CStr) -> c_int {
    let mut found = ptr::null_mut();
    let status = parse(text.as_ptr(), &mut found);
    release(found);
    status
}

/// libddccontrol's reading of a string, and what it holds given back.
unsafe fn ddccontrol(parse: DdccontrolParse, text: &CStr) -> c_int {
    let mut found = DdccontrolCapabilities { entries: [ptr::null_mut(); 256], kind: 0, raw: ptr::null_mut() };
    let count = parse(text.as_ptr(), &mut found, 1);
    for entry in found.entries {
        if !entry.is_null() {
            free((*entry).values.cast());
            free(entry.cast());
        }
    }
    free(found.raw.cast());
    count
}

fn beside(name: &str, mut theirs: impl FnMut(&CStr) -> c_int) {
    for length in [300, 600] {
        let text = text(length);
        let terminated = CString::new(text.clone()).unwrap();
        let mut lent = Lent::new();
        let times = both(
            500,
            || {
                ddcci::read_capabilities_into(
                    black_box(&text),
                    &mut lent.starts,
                    &mut lent.lengths,
                    &mut lent.parents,
                    &mut lent.groups,
                )
            },
            || theirs(black_box(&terminated)),
        );
        line(&format!("{} bytes, beside {name}", text.len()), times);
    }
}

pub fn run() {
    let parse = function(c"libddcutil.so.4", c"ddca_parse_capabilities_string");
    let release = function(c"libddcutil.so.4", c"ddca_free_parsed_capabilities");
    match (parse, release) {
        (Some(parse), Some(release)) => {
            // SAFETY: these are the types of the two functions in libddcutil 4's header.
            let parse: DdcutilParse = unsafe { std::mem::transmute(parse) };
            // SAFETY: as above.
            let release: DdcutilFree = unsafe { std::mem::transmute(release) };
            // SAFETY: the text ends with a zero byte, and what the parser gives is given back to it once.
            beside("libddcutil", |text| unsafe { ddcutil(parse, release, text) });
        }
        _ => println!("libddcutil is not installed (Debian: libddcutil4): not measured"),
    }
    match function(c"libddccontrol.so.0", c"ddcci_parse_caps") {
        Some(parse) => {
            // SAFETY: this is the type of the function in libddccontrol 0's header.
            let parse: DdccontrolParse = unsafe { std::mem::transmute(parse) };
            // SAFETY: the text ends with a zero byte, and what the parser gives is freed once.
            beside("libddccontrol", |text| unsafe { ddccontrol(parse, text) });
        }
        None => println!("libddccontrol is not installed (Debian: libddccontrol0): not measured"),
    }
}

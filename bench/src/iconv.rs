//! glibc's iconv.

use std::ffi::{c_char, c_int, c_void, CString};
use std::io;
use std::ptr;

const E2BIG: i32 = 7;
const EILSEQ: i32 = 84;

extern "C" {
    fn iconv_open(to: *const c_char, from: *const c_char) -> *mut c_void;
    fn iconv(
        converter: *mut c_void,
        input: *mut *const u8,
        input_left: *mut usize,
        output: *mut *mut u8,
        output_left: *mut usize,
    ) -> usize;
    fn iconv_close(converter: *mut c_void) -> c_int;
    fn gnu_get_libc_version() -> *const c_char;
}

/// glibc's version.
pub fn version() -> String {
    let version = unsafe { std::ffi::CStr::from_ptr(gnu_get_libc_version()) };
    version.to_string_lossy().into_owned()
}

pub struct Iconv(*mut c_void);

impl Iconv {
    pub fn open(from: &str, to: &str) -> Result<Iconv, String> {
        let [from, to] = [from, to].map(|name| CString::new(name).expect("no NUL"));
        let converter = unsafe { iconv_open(to.as_ptr(), from.as_ptr()) };
        if converter as isize == -1 {
            return Err(format!("iconv knows no {from:?} to {to:?}"));
        }
        Ok(Iconv(converter))
    }

    /// Converts up to the end, an unfinished sequence or an error. The bytes read, those written, and whether it
    /// stopped at an error.
    fn convert(&mut self, input: &[u8], output: *mut u8, room: usize) -> (usize, usize, bool) {
        let mut next = input.as_ptr();
        let mut left = input.len();
        let mut place = output;
        let mut free = room;
        let result = unsafe { iconv(self.0, &mut next, &mut left, &mut place, &mut free) };
        let mut error = false;
        if result == usize::MAX {
            let number = io::Error::last_os_error().raw_os_error();
            assert_ne!(number, Some(E2BIG), "iconv wants more room");
            error = number == Some(EILSEQ);
        }
        (input.len() - left, room - free, error)
    }

    /// Bytes to scalars, by UTF-32LE.
    pub fn decode(&mut self, input: &[u8], room: &mut [u32]) -> (usize, usize, bool) {
        let (read, written, error) =
            self.convert(input, room.as_mut_ptr().cast(), size_of_val(room));
        (read, written / 4, error)
    }

    /// Scalars to bytes, by UTF-32LE.
    pub fn encode(&mut self, scalars: &[u32], room: &mut [u8]) -> (usize, usize, bool) {
        let bytes =
            unsafe { std::slice::from_raw_parts(scalars.as_ptr().cast(), size_of_val(scalars)) };
        let (read, written, error) = self.convert(bytes, room.as_mut_ptr(), room.len());
        (read / 4, written, error)
    }

    /// What the converter has kept back, and its return to the first state: the bytes written.
    fn end(&mut self, mut place: *mut u8, room: usize) -> usize {
        let mut free = room;
        unsafe {
            iconv(
                self.0,
                ptr::null_mut(),
                ptr::null_mut(),
                &mut place,
                &mut free,
            )
        };
        room - free
    }

    /// The scalars that were kept back.
    pub fn flush(&mut self, room: &mut [u32]) -> usize {
        self.end(room.as_mut_ptr().cast(), size_of_val(room)) / 4
    }

    /// The end of written bytes.
    pub fn finish(&mut self, room: &mut [u8]) -> usize {
        self.end(room.as_mut_ptr(), room.len())
    }
}

impl Drop for Iconv {
    fn drop(&mut self) {
        unsafe { iconv_close(self.0) };
    }
}

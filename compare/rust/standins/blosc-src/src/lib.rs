//! Stands in for blosc-src: the two functions that the reader calls, from the system's C-Blosc.
use std::os::raw::{c_int, c_void};

#[link(name = "blosc")]
extern "C" {
    pub fn blosc_cbuffer_sizes(
        cbuffer: *const c_void,
        nbytes: *mut usize,
        cbytes: *mut usize,
        blocksize: *mut usize,
    );
    pub fn blosc_decompress_ctx(
        src: *const c_void,
        dest: *mut c_void,
        destsize: usize,
        numinternalthreads: c_int,
    ) -> c_int;
}

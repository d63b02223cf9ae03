use std::ffi::c_uint;

#[link(name = "hub", kind = "static")]
extern "C" {
    fn water_book_run(
        script: *const u8,
        script_len: usize,
        memory: *mut u8,
        memory_len: usize,
        output: *mut u8,
        output_len: usize,
        written: *mut u64,
    ) -> c_uint;
}

pub fn run(script: &[u8], memory: &mut [u8], output: &mut [u8]) -> (u32, u64) {
    let mut written = u64::MAX;
    // SAFETY: each pointer comes from a slice of the length beside it, the slices do not
    // overlap, and `written` is a place for one number; all live until the call returns.
    let code = unsafe {
        water_book_run(
            script.as_ptr(),
            script.len(),
            memory.as_mut_ptr(),
            memory.len(),
            output.as_mut_ptr(),
            output.len(),
            &mut written,
        )
    };
    (code, written)
}

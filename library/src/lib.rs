//! The proved library's C entries (include/screen.h), as safe functions: for desk, for the tests and for bench. All that is unsafe stands here.

/// An entry: what it reads, then the area that it writes into. To C each goes as a pointer and a length.
macro_rules! entry {
    ($name:ident($($read:ident),*)) => {
        pub fn $name($($read: &[u8],)* area: &mut [u8]) -> u64 {
            extern "C" {
                fn $name($($read: *const u8, _: usize,)* area: *mut u8, _: usize) -> u64;
            }
            // The slices are valid for their lengths, and the area overlaps none of the others.
            unsafe { $name($($read.as_ptr(), $read.len(),)* area.as_mut_ptr(), area.len()) }
        }
    };
}

entry!(screen_run(sheet));
entry!(screen_load(file, sheet));
entry!(screen_save(sheet));
entry!(screen_save_on(file, sheet));

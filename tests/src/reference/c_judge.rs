//! The check of `c/check.c`, a mark for the time of the library's check.
extern "C" {
    fn c_sound(dir: *const u32, length: usize) -> u32;
}

pub fn sound(words: &[u32]) -> bool {
    unsafe { c_sound(words.as_ptr(), words.len()) == 1 }
}

//! Saltwhistle, through its C boundary.

#[repr(C)]
pub struct Answer {
    pub number: u64,
    pub place: u64,
    pub value: u64,
}

extern "C" {
    fn saltwhistle_check(text: *const u8, text_length: usize) -> Answer;
    fn saltwhistle_shortest(
        text: *const u8,
        text_length: usize,
        output: *mut u8,
        output_length: usize,
    ) -> Answer;
}

/// Whether the text was read.
pub fn read(text: &str) -> bool {
    unsafe { saltwhistle_check(text.as_ptr(), text.len()) }.number == 0
}

/// Whether the text was read and written.
pub fn rewrite(text: &str, output: &mut [u8]) -> bool {
    let answer = unsafe {
        saltwhistle_shortest(text.as_ptr(), text.len(), output.as_mut_ptr(), output.len())
    };
    answer.number == 0
}

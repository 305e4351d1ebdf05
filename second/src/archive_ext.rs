//! The proved code for C of a .BTF.ext section: the two functions that
//! include/scrieve.h declares for it, lent Rust's slices.

extern "C" {
    fn scrieve_check_ext(
        blob: *const u8,
        blob_length: usize,
        section: *const u8,
        section_length: usize,
        index: *mut u32,
        index_places: usize,
        work: *mut u32,
        work_places: usize,
        answer: *mut u32,
        answer_places: usize,
    );
    fn scrieve_ext_record(
        section: *const u8,
        section_length: usize,
        part: u32,
        record: u32,
        answer: *mut u32,
        answer_places: usize,
    );
}

// Each call is sound for the reason that those of `archive` are.

pub fn check(blob: &[u8], section: &[u8], index: &mut [u32], work: &mut [u32], answer: &mut [u32]) {
    unsafe {
        scrieve_check_ext(
            blob.as_ptr(),
            blob.len(),
            section.as_ptr(),
            section.len(),
            index.as_mut_ptr(),
            index.len(),
            work.as_mut_ptr(),
            work.len(),
            answer.as_mut_ptr(),
            answer.len(),
        )
    }
}

pub fn record(section: &[u8], part: u32, record: u32, answer: &mut [u32]) {
    unsafe {
        scrieve_ext_record(
            section.as_ptr(),
            section.len(),
            part,
            record,
            answer.as_mut_ptr(),
            answer.len(),
        )
    }
}

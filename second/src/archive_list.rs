//! The proved code for C of a table's list: the two functions that
//! include/scrieve.h declares for it, lent Rust's slices.

extern "C" {
    fn scrieve_list(
        blob: *const u8,
        blob_length: usize,
        index: *mut u32,
        index_places: usize,
        work: *mut u32,
        work_places: usize,
        out: *mut u8,
        out_length: usize,
        answer: *mut u32,
        answer_places: usize,
    );
    fn scrieve_make(
        list: *const u8,
        list_length: usize,
        index: *mut u32,
        index_places: usize,
        work: *mut u32,
        work_places: usize,
        bytes: *mut u8,
        bytes_length: usize,
        out: *mut u8,
        out_length: usize,
        answer: *mut u32,
        answer_places: usize,
    );
}

// Each call is sound for the reason that those of `archive` are.

pub fn write(blob: &[u8], index: &mut [u32], work: &mut [u32], out: &mut [u8], answer: &mut [u32]) {
    unsafe {
        scrieve_list(
            blob.as_ptr(),
            blob.len(),
            index.as_mut_ptr(),
            index.len(),
            work.as_mut_ptr(),
            work.len(),
            out.as_mut_ptr(),
            out.len(),
            answer.as_mut_ptr(),
            answer.len(),
        )
    }
}

pub fn read(
    list: &[u8],
    index: &mut [u32],
    work: &mut [u32],
    bytes: &mut [u8],
    out: &mut [u8],
    answer: &mut [u32],
) {
    unsafe {
        scrieve_make(
            list.as_ptr(),
            list.len(),
            index.as_mut_ptr(),
            index.len(),
            work.as_mut_ptr(),
            work.len(),
            bytes.as_mut_ptr(),
            bytes.len(),
            out.as_mut_ptr(),
            out.len(),
            answer.as_mut_ptr(),
            answer.len(),
        )
    }
}

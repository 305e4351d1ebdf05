//! The proved code for C of a module's table on its base: the three functions
//! that include/scrieve.h declares for it, lent Rust's slices.

extern "C" {
    fn scrieve_check_leaning(
        base: *const u8,
        base_length: usize,
        module: *const u8,
        module_length: usize,
        index: *mut u32,
        index_places: usize,
        work: *mut u32,
        work_places: usize,
        answer: *mut u32,
        answer_places: usize,
    );
    fn scrieve_size_leaning(
        base: *const u8,
        base_length: usize,
        base_count: u32,
        module: *const u8,
        module_length: usize,
        index: *const u32,
        index_places: usize,
        type_number: u32,
        answer: *mut u32,
        answer_places: usize,
    );
    fn scrieve_name_leaning(
        base: *const u8,
        base_length: usize,
        module: *const u8,
        module_length: usize,
        offset: u32,
        answer: *mut u32,
        answer_places: usize,
    );
}

// Each call is sound for the reason that those of `archive` are.

/// A base and a module's table.
#[derive(Clone, Copy)]
pub struct Blobs<'a> {
    pub base: &'a [u8],
    pub module: &'a [u8],
}

pub fn check(blobs: Blobs, index: &mut [u32], work: &mut [u32], answer: &mut [u32]) {
    unsafe {
        scrieve_check_leaning(
            blobs.base.as_ptr(),
            blobs.base.len(),
            blobs.module.as_ptr(),
            blobs.module.len(),
            index.as_mut_ptr(),
            index.len(),
            work.as_mut_ptr(),
            work.len(),
            answer.as_mut_ptr(),
            answer.len(),
        )
    }
}

pub fn size(blobs: Blobs, base_count: u32, index: &[u32], type_number: u32, answer: &mut [u32]) {
    unsafe {
        scrieve_size_leaning(
            blobs.base.as_ptr(),
            blobs.base.len(),
            base_count,
            blobs.module.as_ptr(),
            blobs.module.len(),
            index.as_ptr(),
            index.len(),
            type_number,
            answer.as_mut_ptr(),
            answer.len(),
        )
    }
}

pub fn name(blobs: Blobs, offset: u32, answer: &mut [u32]) {
    unsafe {
        scrieve_name_leaning(
            blobs.base.as_ptr(),
            blobs.base.len(),
            blobs.module.as_ptr(),
            blobs.module.len(),
            offset,
            answer.as_mut_ptr(),
            answer.len(),
        )
    }
}

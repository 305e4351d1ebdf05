//! The proved code, as the archive has it for C: the functions that
//! include/scrieve.h declares, lent Rust's slices.

use crate::apart::Cut;

#[link(name = "abi", kind = "static")]
extern "C" {
    fn scrieve_check(
        blob: *const u8,
        blob_bytes: usize,
        index: *mut u32,
        index_places: usize,
        work: *mut u32,
        work_places: usize,
        answer: *mut u32,
        answer_places: usize,
    );
    fn scrieve_size(
        blob: *const u8,
        blob_bytes: usize,
        index: *const u32,
        index_places: usize,
        type_number: u32,
        answer: *mut u32,
        answer_places: usize,
    );
    fn scrieve_name(
        blob: *const u8,
        blob_bytes: usize,
        offset: u32,
        answer: *mut u32,
        answer_places: usize,
    );
    fn scrieve_join(
        a: *const u8,
        a_bytes: usize,
        b: *const u8,
        b_bytes: usize,
        index: *mut u32,
        index_places: usize,
        work: *mut u32,
        work_places: usize,
        out: *mut u8,
        out_bytes: usize,
        answer: *mut u32,
        answer_places: usize,
    );
    fn scrieve_split(
        blob: *const u8,
        blob_length: usize,
        types: u32,
        strings: u32,
        index: *mut u32,
        index_places: usize,
        work: *mut u32,
        work_places: usize,
        first: *mut u8,
        first_bytes: usize,
        second: *mut u8,
        second_bytes: usize,
        answer: *mut u32,
        answer_places: usize,
    );
    fn scrieve_member(
        blob: *const u8,
        blob_bytes: usize,
        index: *mut u32,
        index_places: usize,
        work: *mut u32,
        work_places: usize,
        type_number: u32,
        member: u32,
        record: *const u8,
        record_bytes: usize,
        answer: *mut u32,
        answer_places: usize,
        value: *mut u8,
        value_bytes: usize,
    );
    fn scrieve_span(
        blob: *const u8,
        blob_bytes: usize,
        index: *const u32,
        index_places: usize,
        type_number: u32,
        member: u32,
        span: *mut u32,
        span_places: usize,
    );
    fn scrieve_value(
        span: *const u32,
        span_places: usize,
        record: *const u8,
        record_bytes: usize,
        answer: *mut u32,
        answer_places: usize,
        value: *mut u8,
        value_bytes: usize,
    );
}

// Each call is sound for one reason: Rust's slices are live, aligned, never
// null, and those that are written lie apart from all others.

pub fn check(blob: &[u8], index: &mut [u32], work: &mut [u32], answer: &mut [u32]) {
    unsafe {
        scrieve_check(
            blob.as_ptr(),
            blob.len(),
            index.as_mut_ptr(),
            index.len(),
            work.as_mut_ptr(),
            work.len(),
            answer.as_mut_ptr(),
            answer.len(),
        )
    }
}

pub fn size(blob: &[u8], index: &[u32], type_number: u32, answer: &mut [u32]) {
    unsafe {
        scrieve_size(
            blob.as_ptr(),
            blob.len(),
            index.as_ptr(),
            index.len(),
            type_number,
            answer.as_mut_ptr(),
            answer.len(),
        )
    }
}

pub fn name(blob: &[u8], offset: u32, answer: &mut [u32]) {
    unsafe {
        scrieve_name(
            blob.as_ptr(),
            blob.len(),
            offset,
            answer.as_mut_ptr(),
            answer.len(),
        )
    }
}

pub fn join(
    a: &[u8],
    b: &[u8],
    index: &mut [u32],
    work: &mut [u32],
    out: &mut [u8],
    answer: &mut [u32],
) {
    unsafe {
        scrieve_join(
            a.as_ptr(),
            a.len(),
            b.as_ptr(),
            b.len(),
            index.as_mut_ptr(),
            index.len(),
            work.as_mut_ptr(),
            work.len(),
            out.as_mut_ptr(),
            out.len(),
            answer.as_mut_ptr(),
            answer.len(),
        )
    }
}

pub fn split(
    blob: &[u8],
    cut: Cut,
    index: &mut [u32],
    work: &mut [u32],
    first: &mut [u8],
    second: &mut [u8],
    answer: &mut [u32],
) {
    unsafe {
        scrieve_split(
            blob.as_ptr(),
            blob.len(),
            cut.types,
            cut.strings,
            index.as_mut_ptr(),
            index.len(),
            work.as_mut_ptr(),
            work.len(),
            first.as_mut_ptr(),
            first.len(),
            second.as_mut_ptr(),
            second.len(),
            answer.as_mut_ptr(),
            answer.len(),
        )
    }
}

/// What is asked of a table: a member of a type.
#[derive(Clone, Copy)]
pub struct Member {
    pub type_number: u32,
    pub member: u32,
}

pub fn member(
    blob: &[u8],
    index: &mut [u32],
    work: &mut [u32],
    asked: Member,
    record: &[u8],
    answer: &mut [u32],
    value: &mut [u8],
) {
    unsafe {
        scrieve_member(
            blob.as_ptr(),
            blob.len(),
            index.as_mut_ptr(),
            index.len(),
            work.as_mut_ptr(),
            work.len(),
            asked.type_number,
            asked.member,
            record.as_ptr(),
            record.len(),
            answer.as_mut_ptr(),
            answer.len(),
            value.as_mut_ptr(),
            value.len(),
        )
    }
}

pub fn span(blob: &[u8], index: &[u32], asked: Member, span: &mut [u32]) {
    unsafe {
        scrieve_span(
            blob.as_ptr(),
            blob.len(),
            index.as_ptr(),
            index.len(),
            asked.type_number,
            asked.member,
            span.as_mut_ptr(),
            span.len(),
        )
    }
}

pub fn value(span: &[u32], record: &[u8], answer: &mut [u32], value: &mut [u8]) {
    unsafe {
        scrieve_value(
            span.as_ptr(),
            span.len(),
            record.as_ptr(),
            record.len(),
            answer.as_mut_ptr(),
            answer.len(),
            value.as_mut_ptr(),
            value.len(),
        )
    }
}

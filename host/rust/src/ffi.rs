//! The thirteen calls as the C header has them, with a slice for each pointer and its length.
//!
//! Each call answers 0 where it is taken and else the refusal's number. The last slice gets the
//! refusal's place and the call's value, as far as it has room; nothing past them is written.
//!
//! Only this module has `unsafe` code. The header asks three things of a caller, and slices have
//! them: a pointer is valid for its length, it is aligned and not null even where the length is 0,
//! and what is lent by `&mut` overlaps no other slice. The library asks nothing of what stands in
//! the slices, so these functions are safe for every argument.

#![allow(unsafe_code, clippy::too_many_arguments)]

extern "C" {
    fn jiszteruk_read_names(
        file: *const u8,
        file_len: usize,
        table: *mut u8,
        table_len: usize,
        answer: *mut usize,
        answer_len: usize,
    ) -> u8;
    fn jiszteruk_bench_table(table: *mut u8, table_len: usize) -> u8;
    fn jiszteruk_check_table(
        table: *const u8,
        table_len: usize,
        answer: *mut usize,
        answer_len: usize,
    ) -> u8;
    fn jiszteruk_decode(
        table: *const u8,
        table_len: usize,
        root: u8,
        label: *const u16,
        label_len: usize,
        names: *mut u8,
        names_len: usize,
        answer: *mut usize,
        answer_len: usize,
    ) -> u8;
    fn jiszteruk_kinship(
        first: *const u16,
        first_len: usize,
        second: *const u16,
        second_len: usize,
        answer: *mut usize,
        answer_len: usize,
    ) -> u8;
    fn jiszteruk_follows(
        first: *const u16,
        first_len: usize,
        second: *const u16,
        second_len: usize,
        answer: *mut usize,
        answer_len: usize,
    ) -> u8;
    fn jiszteruk_new_store(
        store: *mut u16,
        store_len: usize,
        root: u8,
        payload0: u16,
        payload1: u16,
        answer: *mut usize,
        answer_len: usize,
    ) -> u8;
    fn jiszteruk_check_store(
        table: *const u8,
        table_len: usize,
        store: *const u16,
        store_len: usize,
        count: usize,
        answer: *mut usize,
        answer_len: usize,
    ) -> u8;
    fn jiszteruk_enter(
        table: *const u8,
        table_len: usize,
        store: *mut u16,
        store_len: usize,
        count: usize,
        parent: *const u16,
        parent_len: usize,
        name: u8,
        payload0: u16,
        payload1: u16,
        label: *mut u16,
        label_len: usize,
        answer: *mut usize,
        answer_len: usize,
    ) -> u8;
    fn jiszteruk_delete(
        table: *const u8,
        table_len: usize,
        store: *mut u16,
        store_len: usize,
        count: usize,
        label: *const u16,
        label_len: usize,
        answer: *mut usize,
        answer_len: usize,
    ) -> u8;
    fn jiszteruk_cut(
        table: *const u8,
        table_len: usize,
        store: *const u16,
        store_len: usize,
        count: usize,
        name: u8,
        out: *mut u16,
        out_len: usize,
        answer: *mut usize,
        answer_len: usize,
    ) -> u8;
    fn jiszteruk_check_twig(
        twig: *const u8,
        twig_len: usize,
        answer: *mut usize,
        answer_len: usize,
    ) -> u8;
    fn jiszteruk_match_twig(
        table: *const u8,
        table_len: usize,
        root: u8,
        twig: *const u8,
        twig_len: usize,
        counts: *const usize,
        counts_len: usize,
        buffer: *const u16,
        buffer_len: usize,
        out: *mut u16,
        out_len: usize,
        answer: *mut usize,
        answer_len: usize,
    ) -> u8;
}

/// Reads a child-name file: the output `table` gets its table. 22 for an output that has not 4,096
/// bytes, and then it is untouched; then 1 to 3. A file refused by these gives a table of empty
/// clues, sixty-four rows of 255.
pub fn read_names(file: &[u8], table: &mut [u8], answer: &mut [usize]) -> u8 {
    // SAFETY: pointers and lengths are those of slices.
    unsafe {
        jiszteruk_read_names(
            file.as_ptr(),
            file.len(),
            table.as_mut_ptr(),
            table.len(),
            answer.as_mut_ptr(),
            answer.len(),
        )
    }
}

/// Writes the bench's own table: 22 for a table that has not 4,096 bytes.
pub fn bench_table(table: &mut [u8]) -> u8 {
    // SAFETY: pointer and length are those of a slice.
    unsafe { jiszteruk_bench_table(table.as_mut_ptr(), table.len()) }
}

/// Checks a table: 22.
pub fn check_table(table: &[u8], answer: &mut [usize]) -> u8 {
    // SAFETY: pointers and lengths are those of slices.
    unsafe {
        jiszteruk_check_table(
            table.as_ptr(),
            table.len(),
            answer.as_mut_ptr(),
            answer.len(),
        )
    }
}

/// Gives sixteen names, zeros in a refusal: 22, 21, 15, 16.
pub fn decode(table: &[u8], root: u8, label: &[u16], names: &mut [u8], answer: &mut [usize]) -> u8 {
    // SAFETY: pointers and lengths are those of slices.
    unsafe {
        jiszteruk_decode(
            table.as_ptr(),
            table.len(),
            root,
            label.as_ptr(),
            label.len(),
            names.as_mut_ptr(),
            names.len(),
            answer.as_mut_ptr(),
            answer.len(),
        )
    }
}

/// The value is the kinship of the first label to the second, 0 to 5: 15.
pub fn kinship(first: &[u16], second: &[u16], answer: &mut [usize]) -> u8 {
    // SAFETY: pointers and lengths are those of slices.
    unsafe {
        jiszteruk_kinship(
            first.as_ptr(),
            first.len(),
            second.as_ptr(),
            second.len(),
            answer.as_mut_ptr(),
            answer.len(),
        )
    }
}

/// The value is 1 where the first label is greater in label order, else 0: 15.
pub fn follows(first: &[u16], second: &[u16], answer: &mut [usize]) -> u8 {
    // SAFETY: pointers and lengths are those of slices.
    unsafe {
        jiszteruk_follows(
            first.as_ptr(),
            first.len(),
            second.as_ptr(),
            second.len(),
            answer.as_mut_ptr(),
            answer.len(),
        )
    }
}

/// Writes record 0; the value is the count: 18, 21.
pub fn new_store(store: &mut [u16], root: u8, payload: [u16; 2], answer: &mut [usize]) -> u8 {
    // SAFETY: pointers and lengths are those of slices.
    unsafe {
        jiszteruk_new_store(
            store.as_mut_ptr(),
            store.len(),
            root,
            payload[0],
            payload[1],
            answer.as_mut_ptr(),
            answer.len(),
        )
    }
}

/// Checks a store and the records in use: 22, 18, 19, 23 to 25.
pub fn check_store(table: &[u8], store: &[u16], count: usize, answer: &mut [usize]) -> u8 {
    // SAFETY: pointers and lengths are those of slices.
    unsafe {
        jiszteruk_check_store(
            table.as_ptr(),
            table.len(),
            store.as_ptr(),
            store.len(),
            count,
            answer.as_mut_ptr(),
            answer.len(),
        )
    }
}

/// Enters an element and gives its label, sixteen words, zeros in a refusal; the value is the count
/// after the call: 22, 18, 19, 23 to 25, 15, 9, 10, 11, 12, 13.
pub fn enter(
    table: &[u8],
    store: &mut [u16],
    count: usize,
    parent: &[u16],
    name: u8,
    payload: [u16; 2],
    label: &mut [u16],
    answer: &mut [usize],
) -> u8 {
    // SAFETY: pointers and lengths are those of slices.
    unsafe {
        jiszteruk_enter(
            table.as_ptr(),
            table.len(),
            store.as_mut_ptr(),
            store.len(),
            count,
            parent.as_ptr(),
            parent.len(),
            name,
            payload[0],
            payload[1],
            label.as_mut_ptr(),
            label.len(),
            answer.as_mut_ptr(),
            answer.len(),
        )
    }
}

/// Deletes an element and all below it; the value is the count after the call: 22, 18, 19, 23 to
/// 25, 15, 14, 9.
pub fn delete(
    table: &[u8],
    store: &mut [u16],
    count: usize,
    label: &[u16],
    answer: &mut [usize],
) -> u8 {
    // SAFETY: pointers and lengths are those of slices.
    unsafe {
        jiszteruk_delete(
            table.as_ptr(),
            table.len(),
            store.as_mut_ptr(),
            store.len(),
            count,
            label.as_ptr(),
            label.len(),
            answer.as_mut_ptr(),
            answer.len(),
        )
    }
}

/// Writes the stream of one name, or of all for 255; the value is how many labels it has: 22, 18,
/// 19, 23 to 25, 7, 17.
pub fn cut(
    table: &[u8],
    store: &[u16],
    count: usize,
    name: u8,
    out: &mut [u16],
    answer: &mut [usize],
) -> u8 {
    // SAFETY: pointers and lengths are those of slices.
    unsafe {
        jiszteruk_cut(
            table.as_ptr(),
            table.len(),
            store.as_ptr(),
            store.len(),
            count,
            name,
            out.as_mut_ptr(),
            out.len(),
            answer.as_mut_ptr(),
            answer.len(),
        )
    }
}

/// Checks a twig: 4 to 8.
pub fn check_twig(twig: &[u8], answer: &mut [usize]) -> u8 {
    // SAFETY: pointers and lengths are those of slices.
    unsafe { jiszteruk_check_twig(twig.as_ptr(), twig.len(), answer.as_mut_ptr(), answer.len()) }
}

/// Writes the matches of a twig; the value is their number: 22, 21, 4 to 8, 20, 17.
pub fn match_twig(
    table: &[u8],
    root: u8,
    twig: &[u8],
    counts: &[usize],
    buffer: &[u16],
    out: &mut [u16],
    answer: &mut [usize],
) -> u8 {
    // SAFETY: pointers and lengths are those of slices.
    unsafe {
        jiszteruk_match_twig(
            table.as_ptr(),
            table.len(),
            root,
            twig.as_ptr(),
            twig.len(),
            counts.as_ptr(),
            counts.len(),
            buffer.as_ptr(),
            buffer.len(),
            out.as_mut_ptr(),
            out.len(),
            answer.as_mut_ptr(),
            answer.len(),
        )
    }
}

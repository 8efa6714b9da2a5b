//! The library's calls, each answering its value or its refusal.
use super::{Lab, Refusal, Table, R};
use jiszteruk::ffi;

/// The value or the refusal of a call, which writes place and value to its answer.
fn answered(call: impl FnOnce(&mut [usize]) -> u8) -> R<usize> {
    let mut answer = [0; 2];
    match call(&mut answer) {
        0 => Ok(answer[1]),
        number => Err(Refusal(number, answer[0])),
    }
}

pub fn check(t: &Table, s: &[u16], count: usize) -> R<usize> {
    answered(|a| ffi::check_store(t.as_flattened(), s, count, a))
}

pub fn enter(
    t: &Table,
    s: &mut [u16],
    count: usize,
    parent: &[u16],
    name: u8,
    pay: [u16; 2],
    label: &mut Lab,
) -> R<usize> {
    answered(|a| ffi::enter(t.as_flattened(), s, count, parent, name, pay, label, a))
}

pub fn delete(t: &Table, s: &mut [u16], count: usize, label: &[u16]) -> R<usize> {
    answered(|a| ffi::delete(t.as_flattened(), s, count, label, a))
}

pub fn cut(t: &Table, s: &[u16], count: usize, name: u8, out: &mut [u16]) -> R<usize> {
    answered(|a| ffi::cut(t.as_flattened(), s, count, name, out, a))
}

pub fn match_twig(
    t: &Table,
    root: u8,
    twig: &[u8],
    counts: &[usize],
    buf: &[u16],
    out: &mut [u16],
) -> R<usize> {
    answered(|a| ffi::match_twig(t.as_flattened(), root, twig, counts, buf, out, a))
}

//! The original's calls for C, so that what they cost can be counted (`tests/measure`). Compiled inside `subgroup`, where the original's
//! `FiniteGroup` is visible, and only with `--cfg measured`.
//!
//! What a call starts from is given beforehand; what it makes is freed before it returns. It answers a count.

use std::cell::RefCell;
use std::hint::black_box;

use super::finite_group::FiniteGroup;
use crate::base::Operations;
use crate::data::hall_symbol::HallSymbol;

/// Translations of the given lists are twelfths, so every small tolerance answers alike.
const EPSILON: f64 = 1e-5;

thread_local! {
    static LIST: RefCell<Operations> = const { RefCell::new(Vec::new()) };
    static GROUP: RefCell<Option<(FiniteGroup, Vec<Vec<usize>>)>> = const { RefCell::new(None) };
}

/// # Safety
/// `text` is good for `length` bytes, and they are UTF-8: a look at that would be counted with the call.
unsafe fn symbol(text: *const u8, length: usize) -> HallSymbol {
    let text = unsafe { std::str::from_utf8_unchecked(std::slice::from_raw_parts(text, length)) };
    HallSymbol::new(text).unwrap()
}

#[unsafe(no_mangle)]
pub unsafe extern "C" fn rust_given_list(text: *const u8, length: usize) {
    LIST.set(unsafe { symbol(text, length) }.traverse());
}

#[unsafe(no_mangle)]
pub unsafe extern "C" fn rust_given_group(order: u64, cells: *const u8, length: usize) {
    let cells = unsafe { std::slice::from_raw_parts(cells, length) };
    let row = |part: &[u8]| part.iter().map(|&cell| cell as usize).collect();
    let group = FiniteGroup::from_table(cells.chunks(order as usize).map(row).collect()).unwrap();
    let subgroups = group.enumerate_subgroups();
    GROUP.set(Some((group, subgroups)));
}

#[unsafe(no_mangle)]
pub unsafe extern "C" fn rust_operations(text: *const u8, length: usize) -> u64 {
    black_box(unsafe { symbol(text, length) }.traverse()).len() as u64
}

#[unsafe(no_mangle)]
pub extern "C" fn rust_table() -> u64 {
    LIST.with_borrow(|list| black_box(FiniteGroup::from_operations(list, EPSILON).unwrap()).order() as u64)
}

#[unsafe(no_mangle)]
pub extern "C" fn rust_subgroups() -> u64 {
    GROUP.with_borrow(|given| {
        let (group, _) = given.as_ref().unwrap();
        black_box(group.enumerate_subgroups()).len() as u64
    })
}

#[unsafe(no_mangle)]
pub extern "C" fn rust_classes() -> u64 {
    GROUP.with_borrow(|given| {
        let (group, subgroups) = given.as_ref().unwrap();
        black_box(group.conjugacy_classes(subgroups)).len() as u64
    })
}

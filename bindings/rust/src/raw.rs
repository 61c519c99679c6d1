//! The one module with `unsafe`: the archive's functions, as bindings/c/kaori.h declares them, and a safe function over each.
//!
//! What makes the calls safe: a slice is handed over as its pointer and its length, in this order, so the pointer is not
//! null and aligned, and the length counts elements; Rust's borrows keep what is written apart from all else that is handed
//! over; the functions are proved for any numbers and slices (they have no `requires`), write within the slices alone and
//! keep nothing of them.
#![allow(unsafe_code)]

#[rustfmt::skip]
unsafe extern "C" {
    fn kaori_parse(
        text: *const u8, text_len: usize, tokens: *const u32, tokens_len: usize, limit: u32,
        nodes: *mut u32, nodes_len: usize, links: *mut u32, links_len: usize, symbols: *mut u32, symbols_len: usize,
        scratch: *mut u32, scratch_len: usize, answer: *mut u32, answer_len: usize,
    ) -> u32;
    fn kaori_read(
        text: *const u8, text_len: usize, tokens: *mut u32, tokens_len: usize, limit: u32,
        nodes: *mut u32, nodes_len: usize, links: *mut u32, links_len: usize, symbols: *mut u32, symbols_len: usize,
        scratch: *mut u32, scratch_len: usize, answer: *mut u32, answer_len: usize,
    ) -> u32;
    fn kaori_parse_with(
        names: *const u8, names_len: usize, name_rows: *const u32, name_rows_len: usize,
        text: *const u8, text_len: usize, tokens: *const u32, tokens_len: usize,
        edition: u32, limit: u32,
        nodes: *mut u32, nodes_len: usize, links: *mut u32, links_len: usize, symbols: *mut u32, symbols_len: usize,
        scratch: *mut u32, scratch_len: usize, answer: *mut u32, answer_len: usize,
    ) -> u32;
    fn kaori_read_with(
        names: *const u8, names_len: usize, name_rows: *const u32, name_rows_len: usize,
        text: *const u8, text_len: usize, tokens: *mut u32, tokens_len: usize,
        edition: u32, limit: u32,
        nodes: *mut u32, nodes_len: usize, links: *mut u32, links_len: usize, symbols: *mut u32, symbols_len: usize,
        scratch: *mut u32, scratch_len: usize, answer: *mut u32, answer_len: usize,
    ) -> u32;
    fn kaori_guard_with(
        names: *const u8, names_len: usize, name_rows: *const u32, name_rows_len: usize,
        text: *const u8, text_len: usize, tokens: *const u32, tokens_len: usize,
        edition: u32, limit: u32,
        nodes: *mut u32, nodes_len: usize, links: *mut u32, links_len: usize, symbols: *mut u32, symbols_len: usize,
        scratch: *mut u32, scratch_len: usize, answer: *mut u32, answer_len: usize,
    ) -> u32;
    fn kaori_read_guard_with(
        names: *const u8, names_len: usize, name_rows: *const u32, name_rows_len: usize,
        text: *const u8, text_len: usize, tokens: *mut u32, tokens_len: usize,
        edition: u32, limit: u32,
        nodes: *mut u32, nodes_len: usize, links: *mut u32, links_len: usize, symbols: *mut u32, symbols_len: usize,
        scratch: *mut u32, scratch_len: usize, answer: *mut u32, answer_len: usize,
    ) -> u32;
    fn kaori_parse_scripts(
        names: *const u8, names_len: usize, name_rows: *const u32, name_rows_len: usize,
        text: *const u8, text_len: usize, tokens: *const u32, tokens_len: usize, cuts: *const u32, cuts_len: usize,
        edition: u32, limit: u32, part: u32,
        nodes: *mut u32, nodes_len: usize, links: *mut u32, links_len: usize, symbols: *mut u32, symbols_len: usize,
        scratch: *mut u32, scratch_len: usize, answers: *mut u32, answers_len: usize,
    ) -> u32;
    fn kaori_read_scripts(
        names: *const u8, names_len: usize, name_rows: *const u32, name_rows_len: usize,
        text: *const u8, text_len: usize, tokens: *mut u32, tokens_len: usize, cuts: *const u32, cuts_len: usize,
        edition: u32, limit: u32, part: u32,
        nodes: *mut u32, nodes_len: usize, links: *mut u32, links_len: usize, symbols: *mut u32, symbols_len: usize,
        scratch: *mut u32, scratch_len: usize, answers: *mut u32, answers_len: usize,
    ) -> u32;
    fn kaori_name(
        names: *const u8, names_len: usize, text: *const u8, text_len: usize, symbols: *const u32, symbols_len: usize,
        count: u32, built: u32, symbol: u32, answer: *mut u32, answer_len: usize,
    ) -> u32;
    fn kaori_reason(
        text: *const u8, text_len: usize, code: u32, start: u32, expected: u32, found: u32,
        room: *mut u8, room_len: usize,
    ) -> usize;
    fn kaori_child(
        nodes: *const u32, nodes_len: usize, links: *const u32, links_len: usize, row: u32, place: usize,
    ) -> u32;
    fn kaori_children(nodes: *const u32, nodes_len: usize, row: u32) -> usize;
    fn kaori_check(
        nodes: *const u32, nodes_len: usize, links: *const u32, links_len: usize, symbols: *const u32, symbols_len: usize,
        node_count: u32, link_count: u32, symbol_count: u32, edition: u32,
        scratch: *mut u32, scratch_len: usize, answer: *mut u32, answer_len: usize,
    ) -> u32;
    fn kaori_drop(
        nodes: *mut u32, nodes_len: usize, links: *mut u32, links_len: usize, symbols: *mut u32, symbols_len: usize,
        node_count: u32, link_count: u32, symbol_count: u32, builtins: u32, edition: u32,
        choice: *const u8, choice_len: usize, scratch: *mut u32, scratch_len: usize, answer: *mut u32, answer_len: usize,
    ) -> u32;
    fn kaori_message(code: u32, expected: u32, found: u32, room: *mut u8, room_len: usize) -> usize;
    fn kaori_expected(
        tokens: *const u32, tokens_len: usize, edition: u32, limit: u32, code: u32, at: u32,
        told: *mut u32, told_len: usize,
    ) -> u64;
    fn kaori_place(text: *const u8, text_len: usize, offset: usize, answer: *mut u32, answer_len: usize) -> u32;
}

#[rustfmt::skip]
#[allow(clippy::too_many_arguments)]
pub fn parse(
    text: &[u8], tokens: &[u32], limit: u32,
    nodes: &mut [u32], links: &mut [u32], symbols: &mut [u32], scratch: &mut [u32], answer: &mut [u32; 8],
) -> u32 {
    // SAFETY: as the module says.
    unsafe {
        kaori_parse(
            text.as_ptr(), text.len(), tokens.as_ptr(), tokens.len(), limit,
            nodes.as_mut_ptr(), nodes.len(), links.as_mut_ptr(), links.len(), symbols.as_mut_ptr(), symbols.len(),
            scratch.as_mut_ptr(), scratch.len(), answer.as_mut_ptr(), answer.len(),
        )
    }
}

#[rustfmt::skip]
#[allow(clippy::too_many_arguments)]
pub fn read(
    text: &[u8], tokens: &mut [u32], limit: u32,
    nodes: &mut [u32], links: &mut [u32], symbols: &mut [u32], scratch: &mut [u32], answer: &mut [u32; 8],
) -> u32 {
    // SAFETY: as the module says.
    unsafe {
        kaori_read(
            text.as_ptr(), text.len(), tokens.as_mut_ptr(), tokens.len(), limit,
            nodes.as_mut_ptr(), nodes.len(), links.as_mut_ptr(), links.len(), symbols.as_mut_ptr(), symbols.len(),
            scratch.as_mut_ptr(), scratch.len(), answer.as_mut_ptr(), answer.len(),
        )
    }
}

#[rustfmt::skip]
#[allow(clippy::too_many_arguments)]
pub fn parse_with(
    names: &[u8], name_rows: &[u32], text: &[u8], tokens: &[u32], edition: u32, limit: u32,
    nodes: &mut [u32], links: &mut [u32], symbols: &mut [u32], scratch: &mut [u32], answer: &mut [u32; 8],
) -> u32 {
    // SAFETY: as the module says.
    unsafe {
        kaori_parse_with(
            names.as_ptr(), names.len(), name_rows.as_ptr(), name_rows.len(),
            text.as_ptr(), text.len(), tokens.as_ptr(), tokens.len(), edition, limit,
            nodes.as_mut_ptr(), nodes.len(), links.as_mut_ptr(), links.len(), symbols.as_mut_ptr(), symbols.len(),
            scratch.as_mut_ptr(), scratch.len(), answer.as_mut_ptr(), answer.len(),
        )
    }
}

#[rustfmt::skip]
#[allow(clippy::too_many_arguments)]
pub fn read_with(
    names: &[u8], name_rows: &[u32], text: &[u8], tokens: &mut [u32], edition: u32, limit: u32,
    nodes: &mut [u32], links: &mut [u32], symbols: &mut [u32], scratch: &mut [u32], answer: &mut [u32; 8],
) -> u32 {
    // SAFETY: as the module says.
    unsafe {
        kaori_read_with(
            names.as_ptr(), names.len(), name_rows.as_ptr(), name_rows.len(),
            text.as_ptr(), text.len(), tokens.as_mut_ptr(), tokens.len(), edition, limit,
            nodes.as_mut_ptr(), nodes.len(), links.as_mut_ptr(), links.len(), symbols.as_mut_ptr(), symbols.len(),
            scratch.as_mut_ptr(), scratch.len(), answer.as_mut_ptr(), answer.len(),
        )
    }
}

#[rustfmt::skip]
#[allow(clippy::too_many_arguments)]
pub fn guard_with(
    names: &[u8], name_rows: &[u32], text: &[u8], tokens: &[u32], edition: u32, limit: u32,
    nodes: &mut [u32], links: &mut [u32], symbols: &mut [u32], scratch: &mut [u32], answer: &mut [u32; 8],
) -> u32 {
    // SAFETY: as the module says.
    unsafe {
        kaori_guard_with(
            names.as_ptr(), names.len(), name_rows.as_ptr(), name_rows.len(),
            text.as_ptr(), text.len(), tokens.as_ptr(), tokens.len(), edition, limit,
            nodes.as_mut_ptr(), nodes.len(), links.as_mut_ptr(), links.len(), symbols.as_mut_ptr(), symbols.len(),
            scratch.as_mut_ptr(), scratch.len(), answer.as_mut_ptr(), answer.len(),
        )
    }
}

#[rustfmt::skip]
#[allow(clippy::too_many_arguments)]
pub fn read_guard_with(
    names: &[u8], name_rows: &[u32], text: &[u8], tokens: &mut [u32], edition: u32, limit: u32,
    nodes: &mut [u32], links: &mut [u32], symbols: &mut [u32], scratch: &mut [u32], answer: &mut [u32; 8],
) -> u32 {
    // SAFETY: as the module says.
    unsafe {
        kaori_read_guard_with(
            names.as_ptr(), names.len(), name_rows.as_ptr(), name_rows.len(),
            text.as_ptr(), text.len(), tokens.as_mut_ptr(), tokens.len(), edition, limit,
            nodes.as_mut_ptr(), nodes.len(), links.as_mut_ptr(), links.len(), symbols.as_mut_ptr(), symbols.len(),
            scratch.as_mut_ptr(), scratch.len(), answer.as_mut_ptr(), answer.len(),
        )
    }
}

#[rustfmt::skip]
#[allow(clippy::too_many_arguments)]
pub fn parse_scripts(
    names: &[u8], name_rows: &[u32], text: &[u8], tokens: &[u32], cuts: &[u32], edition: u32, limit: u32, part: u32,
    nodes: &mut [u32], links: &mut [u32], symbols: &mut [u32], scratch: &mut [u32], answers: &mut [u32],
) -> u32 {
    // SAFETY: as the module says.
    unsafe {
        kaori_parse_scripts(
            names.as_ptr(), names.len(), name_rows.as_ptr(), name_rows.len(),
            text.as_ptr(), text.len(), tokens.as_ptr(), tokens.len(), cuts.as_ptr(), cuts.len(), edition, limit, part,
            nodes.as_mut_ptr(), nodes.len(), links.as_mut_ptr(), links.len(), symbols.as_mut_ptr(), symbols.len(),
            scratch.as_mut_ptr(), scratch.len(), answers.as_mut_ptr(), answers.len(),
        )
    }
}

#[rustfmt::skip]
#[allow(clippy::too_many_arguments)]
pub fn read_scripts(
    names: &[u8], name_rows: &[u32], text: &[u8], tokens: &mut [u32], cuts: &[u32], edition: u32, limit: u32, part: u32,
    nodes: &mut [u32], links: &mut [u32], symbols: &mut [u32], scratch: &mut [u32], answers: &mut [u32],
) -> u32 {
    // SAFETY: as the module says.
    unsafe {
        kaori_read_scripts(
            names.as_ptr(), names.len(), name_rows.as_ptr(), name_rows.len(),
            text.as_ptr(), text.len(), tokens.as_mut_ptr(), tokens.len(), cuts.as_ptr(), cuts.len(), edition, limit, part,
            nodes.as_mut_ptr(), nodes.len(), links.as_mut_ptr(), links.len(), symbols.as_mut_ptr(), symbols.len(),
            scratch.as_mut_ptr(), scratch.len(), answers.as_mut_ptr(), answers.len(),
        )
    }
}

#[rustfmt::skip]
pub fn name(
    names: &[u8], text: &[u8], symbols: &[u32], count: u32, built: u32, symbol: u32, answer: &mut [u32; 3],
) -> u32 {
    // SAFETY: as the module says.
    unsafe {
        kaori_name(
            names.as_ptr(), names.len(), text.as_ptr(), text.len(), symbols.as_ptr(), symbols.len(),
            count, built, symbol, answer.as_mut_ptr(), answer.len(),
        )
    }
}

pub fn message(code: u32, expected: u32, found: u32, room: &mut [u8; 52]) -> usize {
    // SAFETY: as the module says.
    unsafe { kaori_message(code, expected, found, room.as_mut_ptr(), room.len()) }
}

pub fn reason(text: &[u8], code: u32, start: u32, expected: u32, found: u32, room: &mut [u8; 52]) -> usize {
    // SAFETY: as the module says.
    unsafe {
        kaori_reason(text.as_ptr(), text.len(), code, start, expected, found, room.as_mut_ptr(), room.len())
    }
}

pub fn child(nodes: &[u32], links: &[u32], row: u32, place: usize) -> u32 {
    // SAFETY: as the module says.
    unsafe { kaori_child(nodes.as_ptr(), nodes.len(), links.as_ptr(), links.len(), row, place) }
}

pub fn children(nodes: &[u32], row: u32) -> usize {
    // SAFETY: as the module says.
    unsafe { kaori_children(nodes.as_ptr(), nodes.len(), row) }
}

#[rustfmt::skip]
pub fn check(
    nodes: &[u32], links: &[u32], symbols: &[u32], [node_count, link_count, symbol_count]: [u32; 3], edition: u32,
    scratch: &mut [u32], answer: &mut [u32; 3],
) -> u32 {
    // SAFETY: as the module says.
    unsafe {
        kaori_check(
            nodes.as_ptr(), nodes.len(), links.as_ptr(), links.len(), symbols.as_ptr(), symbols.len(),
            node_count, link_count, symbol_count, edition,
            scratch.as_mut_ptr(), scratch.len(), answer.as_mut_ptr(), answer.len(),
        )
    }
}

#[rustfmt::skip]
#[allow(clippy::too_many_arguments)]
pub fn drop(
    nodes: &mut [u32], links: &mut [u32], symbols: &mut [u32], [node_count, link_count, symbol_count]: [u32; 3],
    builtins: u32, edition: u32, choice: &[bool], scratch: &mut [u32], answer: &mut [u32; 6],
) -> u32 {
    // SAFETY: as the module says; a `bool` is a byte, 0 or 1.
    unsafe {
        kaori_drop(
            nodes.as_mut_ptr(), nodes.len(), links.as_mut_ptr(), links.len(), symbols.as_mut_ptr(), symbols.len(),
            node_count, link_count, symbol_count, builtins, edition,
            choice.as_ptr().cast(), choice.len(), scratch.as_mut_ptr(), scratch.len(), answer.as_mut_ptr(), answer.len(),
        )
    }
}

pub fn expected(tokens: &[u32], edition: u32, limit: u32, code: u32, at: u32, told: &mut [u32; 131]) -> u64 {
    // SAFETY: as the module says.
    unsafe {
        kaori_expected(tokens.as_ptr(), tokens.len(), edition, limit, code, at, told.as_mut_ptr(), told.len())
    }
}

pub fn place(text: &[u8], offset: usize, answer: &mut [u32; 3]) -> u32 {
    // SAFETY: as the module says.
    unsafe { kaori_place(text.as_ptr(), text.len(), offset, answer.as_mut_ptr(), answer.len()) }
}

//! The text that a row covers, as the command `kaori` has it (crates/showing/src/cover.rt).
use crate::{Kind, NODE_WIDTH, Span, TOKEN_WIDTH};

const START: usize = 1;
const END: usize = 2;
const PARENT: usize = 9;

/// The last of these rows with all that stands below it: the rows before it whose parents are among them. Rows are written
/// children first, so what stands below a row stands right before it.
pub fn reach(rows: &[[u32; NODE_WIDTH]]) -> Span {
    let Some((top, before)) = rows.split_last() else { return Span::default() };
    let below = before.iter().rev().take_while(|row| (row[PARENT] as usize) < rows.len());
    below.fold(Span { start: top[START], end: top[END] }, |reach, row| Span {
        start: reach.start.min(row[START]),
        end: reach.end.max(row[END]),
    })
}

/// A part of the text with the counterparts of the parentheses that are alone in it: those of `(` are the next ones to its
/// right, those of `)` the next ones to its left.
pub fn balanced(tokens: &[[u32; TOKEN_WIDTH]], part: Span) -> Span {
    let (mut open, mut shut) = (0u32, 0u32);
    let first = tokens.partition_point(|&[_, start, _]| start < part.start);
    let after = tokens.partition_point(|&[_, _, end]| end <= part.end).max(first);
    let (left, rest) = tokens.split_at(first);
    let (inside, right) = rest.split_at(after - first);
    for &[kind, ..] in inside {
        match Kind::from_u32(kind) {
            Some(Kind::LeftParen) => open += 1,
            Some(Kind::RightParen) if open == 0 => shut += 1,
            Some(Kind::RightParen) => open -= 1,
            _ => {}
        }
    }
    let counterpart = |number: u32, kind: Kind, side: &mut dyn Iterator<Item = &[u32; TOKEN_WIDTH]>| {
        let last = (number as usize).checked_sub(1)?;
        side.filter(|token| token[0] == kind as u32).nth(last).copied()
    };
    let opened = counterpart(shut, Kind::LeftParen, &mut left.iter().rev());
    let closed = counterpart(open, Kind::RightParen, &mut right.iter());
    Span {
        start: opened.map_or(part.start, |[_, start, _]| start),
        end: closed.map_or(part.end, |[_, _, end]| end),
    }
}

//! Answers a stream of cases, each in a frame, by a stream of frames, as the program `batch` does, so that `oracle/compare`
//! can hold the archive to the Rust parser: bindings/README.md has the command.
#[path = "../tests/rows/mod.rs"]
mod rows;

use std::io::{BufWriter, Error, Read, Write, stdin, stdout};

use kaori_syntax::{Builtins, Code, Edition, Refusal, Rooms, Span, Tree, expected};
use rows::{answer, decode, frame};

const BAD: &str = "bad input\n";
/// What stands before a limit and the sizes of rooms, what does where built-in names follow these, what does before an edition
/// where one stands before all this, and what does before the same of a guard; what stands before an edition, a limit, a code
/// and a token, of which it is asked what could have stood there; the largest rooms that are lent, and the largest names: as
/// for the program `batch`.
const MARK: [u8; 2] = [0x52, 0x4D];
const NAMES_MARK: [u8; 2] = [0x52, 0x4E];
const EDITION_MARK: [u8; 2] = [0x52, 0x4F];
const KINDS_MARK: [u8; 2] = [0x52, 0x50];
const GUARD_MARK: [u8; 2] = [0x52, 0x51];
const MOST_OPEN: usize = 64;
const LARGEST: [usize; 4] = [5_129, 1_538, 1_025, 1_538];
const MOST_BYTES: usize = 8_192;
const MOST_NUMBERS: usize = 133;

fn main() -> Result<(), Error> {
    let mut rooms = Rooms::for_tokens(512);
    let (mut input, mut output) = (stdin().lock(), BufWriter::new(stdout().lock()));
    let mut length = [0; 4];
    while input.read_exact(&mut length).is_ok() {
        let mut bytes = length.to_vec();
        input.by_ref().take(u64::from(u32::from_le_bytes(length))).read_to_end(&mut bytes)?;
        let Some(case) = frame(&mut &bytes[..]) else { break };
        let printed = match (lent(case).or_else(|| refused(case)), decode(case)) {
            (Some(told), _) => told,
            (None, Some((text, tokens))) => answer(rooms.parse(text, &tokens, 64)),
            (None, None) => BAD.to_string(),
        };
        output.write_all(&(printed.len() as u32).to_le_bytes())?;
        output.write_all(printed.as_bytes())?;
        output.flush()?;
    }
    Ok(())
}

/// The answer to a case with a limit and rooms of its own, if it is one: the eight numbers, and then each room as it was left.
fn lent(case: &[u8]) -> Option<String> {
    let mark =
        [MARK, NAMES_MARK, EDITION_MARK, GUARD_MARK].into_iter().find(|mark| case.starts_with(mark))?;
    let mut rest = &case[mark.len()..];
    let edition = match mark {
        EDITION_MARK | GUARD_MARK => Edition(numbers(&mut rest, 1)?[0]),
        _ => Edition::FIRST,
    };
    let head = numbers(&mut rest, 5)?;
    let names = if mark == MARK { None } else { Some(names(&mut rest)?) };
    let Some((text, tokens)) = decode(rest) else { return Some(BAD.to_string()) };
    let room = |i: usize| vec![7; (head[i + 1] as usize).min(LARGEST[i])];
    let mut rooms =
        Rooms { nodes: room(0), links: room(1), symbols: room(2), scratch: room(3), ..Rooms::for_tokens(0) };
    let builtins = names.as_ref().map_or(Builtins::NONE, |(text, rows)| Builtins { text, rows });
    let answered = match mark {
        MARK => rooms.parse(text, &tokens, head[0]),
        GUARD_MARK => rooms.guard_with(builtins, text, &tokens, edition, head[0]),
        _ => rooms.parse_with(builtins, text, &tokens, edition, head[0]),
    };
    let numbers = match answered {
        Ok(tree) => {
            spelled(&tree, builtins, text);
            let counts = [tree.node_rows().len(), tree.link_rows().len(), tree.symbol_rows().len()];
            [0, counts[0] as u32, counts[1] as u32, counts[2] as u32, 0, 0, 0, 255]
        }
        Err(Refusal { code, at, span, expected, .. }) => {
            [code as u32, 0, 0, 0, at, span.start, span.end, expected.map_or(255, u32::from)]
        }
    };
    let Rooms { nodes, links, symbols, scratch, .. } = &rooms;
    Some([&numbers[..], nodes, links, symbols, scratch].map(line).concat())
}

/// The answer to a case of a refusal, if it is one: the set in two numbers, the low one first, how many kinds it has, the lowest
/// and how many constructs are open; and then the sort and the token of each, with zeros for those that are not.
fn refused(case: &[u8]) -> Option<String> {
    let mut rest = case.strip_prefix(&KINDS_MARK)?;
    let [edition, limit, code, at] = numbers(&mut rest, 4)?.try_into().ok()?;
    let Some((_, tokens)) = decode(rest) else { return Some(BAD.to_string()) };
    let edition = Edition(edition);
    // of any number that is no code nothing is told, as of one that is no code of reading
    let code = Code::from_u32(code).unwrap_or(Code::SmallAnswer);
    let why = Refusal {
        code,
        at,
        span: Span::default(),
        byte: None,
        expected: None,
        found: None,
        edition,
        limit,
        guard: false,
    };
    let told = expected(&tokens, why);
    let [low, high] = [told.bits() as u32, (told.bits() >> 32) as u32];
    let open = told.open();
    let mut pairs: Vec<u32> = open.iter().flat_map(|opening| [opening.sort as u32, opening.at]).collect();
    pairs.resize(2 * MOST_OPEN, 0);
    let head = [low, high, told.count(), told.lowest().map_or(255, u32::from), open.len() as u32];
    Some([&head[..], &pairs].map(line).concat())
}

/// A line of numbers, each after a blank.
fn line(numbers: &[u32]) -> String {
    numbers.iter().map(|n| format!(" {n}")).collect::<String>() + "\n"
}

/// The next numbers of a case, four bytes each.
fn numbers(rest: &mut &[u8], count: usize) -> Option<Vec<u32>> {
    let bytes = rest.split_off(..4 * count)?;
    Some(bytes.as_chunks().0.iter().map(|bytes| u32::from_le_bytes(*bytes)).collect())
}

/// Built-in names: how long their text is and how many numbers their rows have, and then both.
fn names<'a>(rest: &mut &'a [u8]) -> Option<(&'a [u8], Vec<u32>)> {
    let sizes = numbers(rest, 2)?;
    let [size, count] = [sizes[0] as usize, sizes[1] as usize];
    if MOST_BYTES < size || MOST_NUMBERS < count {
        return None;
    }
    Some((rest.split_off(..size)?, numbers(rest, count)?))
}

/// Each symbol has the bytes of its row, out of the built-in text or the script's, and there is none after them.
fn spelled(tree: &Tree, builtins: Builtins, text: &[u8]) {
    for (symbol, row) in tree.symbol_rows().iter().enumerate() {
        let own = if symbol < builtins.count() as usize { builtins.text } else { text };
        assert_eq!(tree.symbol(symbol as u32), own.get(row[0] as usize..row[1] as usize), "symbol {symbol}");
    }
    assert_eq!(tree.symbol(tree.symbol_rows().len() as u32), None);
}

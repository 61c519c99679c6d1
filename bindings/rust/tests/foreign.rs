//! Rows that another build wrote: what passes the check and what does not, held to a model of the nine rules; that a tree of
//! what passes can be walked, whatever its spans are; and that what is left of it without some statements passes too.
#[allow(dead_code)]
mod rows;

use kaori_syntax::{
    Builtins, Code, Edition, Held, LINK_WIDTH, Lent, NODE_WIDTH, Node, OwnedBuiltins, Rooms, RowsRefusal,
    Rule, SYMBOL_WIDTH, Span, Tree, keep,
};
use rows::{decode, frame};

const LIST: &[u8] = include_bytes!("../../../crates/replay/stdin");
const SETS: &[u8] = include_bytes!("../../../crates/verdicts/stdin");
const VERDICTS: &[u8] = include_bytes!("../../../crates/verdicts/stdout");
const ABSENT: u32 = u32::MAX;
const BLOCK: u32 = 20;
const PARENT: usize = 9;
const EDITIONS: [Edition; 2] = [Edition::FIRST, Edition::SECOND];

/// Rows as they are sent.
#[derive(Clone, Debug, PartialEq)]
struct Sent {
    nodes: Vec<u32>,
    links: Vec<u32>,
    symbols: Vec<u32>,
    edition: Edition,
}

impl Sent {
    fn of(tree: &Tree, edition: Edition) -> Sent {
        Sent {
            nodes: tree.node_rows().concat(),
            links: tree.link_rows().concat(),
            symbols: tree.symbol_rows().concat(),
            edition,
        }
    }

    fn read(text: &str, edition: Edition) -> Sent {
        let mut rooms = Rooms::for_tokens(64);
        let tree = rooms.read_with(Builtins::NONE, text.as_bytes(), edition, 64);
        Sent::of(&tree.unwrap(), edition)
    }

    fn counts(&self) -> [u32; 3] {
        let Sent { nodes, links, symbols, .. } = self;
        [nodes.len() / NODE_WIDTH, links.len() / LINK_WIDTH, symbols.len() / SYMBOL_WIDTH]
            .map(|count| count as u32)
    }

    fn tree(&self) -> Result<Tree<'_>, RowsRefusal> {
        let [nodes, links, _] = self.counts();
        let size = (nodes + 2 * links) as usize;
        let mut scratch = vec![7; size + 2];
        let taken = Tree::from_rows(
            &self.nodes,
            &self.links,
            &self.symbols,
            self.counts(),
            self.edition,
            &mut scratch[..size],
        );
        // zeros throughout, and nothing past what is lent; as it was after 21
        let left = if taken.is_err_and(|why| why.code == Code::BadEdition) { 7 } else { 0 };
        assert!(scratch[..size].iter().all(|&number| number == left) && scratch[size..] == [7; 2]);
        taken
    }

    /// The rule and the row of a 22.
    fn refused(&self) -> Option<(u32, u32)> {
        let why = self.tree().err()?;
        assert_eq!(why.code, Code::BadRows);
        let rule = why.rule.unwrap();
        assert_eq!(why.to_string(), format!("row {} breaks rule {}: {rule}", why.row, rule as u32));
        Some((rule as u32, why.row))
    }
}

/// What stands in a row after its kind and span, as crates/grammar/specs/Layout.antt has it.
#[derive(Clone, Copy, PartialEq)]
enum Slot {
    Below(u32),
    Child,
    Option,
    Symbol,
    Name,
    Nodes,
    Names,
    Entries,
}

fn layout(kind: u32, edition: Edition) -> &'static [Slot] {
    use Slot::*;
    match kind {
        1 => &[Below(11), Child, Child],
        2 | 3 | 6 | 22 => &[Child, Child],
        4 => &[Child],
        5 => &[Below(2), Child],
        7..=9 => &[Name, Child],
        10 => &[Name],
        11 => &[Symbol],
        13 => &[Below(2)],
        15 => &[Child, Nodes],
        16 => &[Child, Name],
        17 => &[Entries],
        18 => &[Name, Names, Child],
        19 => &[Names, Child],
        20 => &[Nodes, Option],
        21 => &[Child, Child, Option],
        23 if edition == Edition::SECOND => &[Option],
        23 => &[Child],
        26 => &[Names, Names],
        _ => &[],
    }
}

/// What stands in a row and its links, as crates/foreign/specs/Check.antt has it.
#[derive(Clone, Copy)]
enum Item {
    Number(u32, u32),
    Child(u32),
    Option(u32),
    Symbol(u32),
    List(u32, u32),
    Unused(u32),
}

fn items(sent: &Sent, row: usize) -> Vec<Item> {
    let numbers = &sent.nodes[NODE_WIDTH * row..NODE_WIDTH * row + PARENT];
    let (mut at, mut items) = (3, Vec::new());
    for &slot in layout(numbers[0], sent.edition) {
        let x = numbers[at];
        at += match slot {
            Slot::Name => 3,
            Slot::Nodes | Slot::Names | Slot::Entries => 2,
            _ => 1,
        };
        match slot {
            Slot::Below(limit) => items.push(Item::Number(limit, x)),
            Slot::Child => items.push(Item::Child(x)),
            Slot::Option => items.push(Item::Option(x)),
            Slot::Symbol | Slot::Name => items.push(Item::Symbol(x)),
            Slot::Nodes | Slot::Names | Slot::Entries => {
                let count = numbers[at - 1];
                items.push(Item::List(x, count));
                let links: Vec<_> = sent.links.chunks(LINK_WIDTH).collect();
                // a list that is out of range breaks rule 2, whatever it has
                for link in links.get(x as usize..x as usize + count as usize).unwrap_or_default() {
                    match slot {
                        Slot::Nodes => {
                            items.extend([Item::Child(link[0]), Item::Unused(link[1]), Item::Unused(link[2])])
                        }
                        Slot::Names => items.push(Item::Symbol(link[0])),
                        _ => {
                            items.extend([Item::Child(link[0]), Item::Option(link[1]), Item::Unused(link[2])])
                        }
                    }
                }
            }
        }
    }
    items.extend(numbers[at..].iter().map(|&number| Item::Unused(number)));
    items
}

/// The first rule that does not hold, and the first row that breaks it: rule by rule, as they are written down.
fn model(sent: &Sent) -> Option<(u32, u32)> {
    let [count, links, symbols] = sent.counts();
    let rows = || 0..count;
    let all: Vec<Vec<Item>> = rows().map(|row| items(sent, row as usize)).collect();
    let kind = |row: u32| sent.nodes[NODE_WIDTH * row as usize];
    let named = |row: u32| {
        all[row as usize].iter().filter_map(|&item| match item {
            Item::Child(x) | Item::Option(x) => Some(x),
            _ => None,
        })
    };
    let each = |rule: u32, holds: &dyn Fn(u32, Item) -> bool| {
        let broken = rows().find(|&row| !all[row as usize].iter().all(|&item| holds(row, item)));
        broken.map(|row| (rule, row))
    };
    let last = count.saturating_sub(1);
    let by: Vec<Vec<u32>> =
        rows().map(|row| rows().filter(|&other| named(other).any(|x| x == row)).collect()).collect();
    let times = |row: u32| rows().flat_map(named).filter(|&x| x == row).count();
    let mut end = 0;
    let mut follows = |row: u32| {
        all[row as usize].iter().all(|&item| match item {
            Item::List(first, count) => {
                let starts = first == end;
                end += count;
                starts
            }
            _ => true,
        })
    };
    None.or(rows().find(|&row| !(1..=26).contains(&kind(row))).map(|row| (1, row)))
        .or_else(|| {
            each(2, &|_, item| match item {
                Item::Number(limit, x) => x < limit,
                Item::Symbol(x) => x < symbols,
                Item::List(first, count) => u64::from(first) + u64::from(count) <= u64::from(links),
                _ => true,
            })
        })
        .or_else(|| {
            each(3, &|row, item| match item {
                Item::Child(x) | Item::Option(x) => x < row || x == ABSENT,
                _ => true,
            })
        })
        .or_else(|| (0..last).find(|&row| times(row) != 1).map(|row| (4, row)))
        .or_else(|| {
            let rooted =
                count > 0 && kind(last) == BLOCK && sent.nodes[NODE_WIDTH * last as usize + 5] == ABSENT;
            (!rooted).then_some((5, last))
        })
        .or_else(|| rows().find(|&row| !follows(row)).map(|row| (6, row)))
        .or_else(|| (end != links).then_some((6, last)))
        .or_else(|| each(7, &|_, item| !matches!(item, Item::Child(ABSENT))))
        .or_else(|| {
            each(8, &|_, item| match item {
                Item::Unused(x) => x == 0,
                _ => true,
            })
        })
        .or_else(|| {
            let parent = |row: u32| by[row as usize].last().copied().unwrap_or(ABSENT);
            rows()
                .find(|&row| sent.nodes[NODE_WIDTH * row as usize + PARENT] != parent(row))
                .map(|row| (9, row))
        })
}

/// Walks a tree of rows that passed: from the root each row is met once, and from each row the root; and nothing that is asked
/// of it panics.
fn walk(tree: &Tree) {
    let count = tree.node_rows().len();
    assert_eq!(tree.rows().count(), count);
    assert!(tree.rows().rev().map(|row| row.number).eq((0..count as u32).rev()));
    let root = tree.root().unwrap();
    assert!(matches!(root.node, Node::Block { tail: None, .. }) && root.parent.is_none());
    let (mut met, mut left) = (vec![0; count], vec![root.number]);
    while let Some(number) = left.pop() {
        met[number as usize] += 1;
        assert_eq!(met[number as usize], 1);
        for child in tree.children(number) {
            assert!(child.number < number && child.parent == Some(number));
            left.push(child.number);
        }
    }
    assert!(met.iter().all(|&times| times == 1));
    for row in tree.rows() {
        assert_eq!(tree.cover(row.number), None);
        let _ = row.span.of(tree.text());
        let names: Vec<_> = match row.node {
            Node::Variable { left: name, .. }
            | Node::Constant { left: name, .. }
            | Node::Ref { left: name, .. }
            | Node::Identifier(name)
            | Node::PropertyAccess { property: name, .. } => vec![name],
            Node::Function { name, parameters, .. } => parameters.iter().chain([name]).collect(),
            Node::Lambda { parameters, .. } => parameters.iter().collect(),
            Node::Import { path, bindings } => path.iter().chain(bindings).collect(),
            _ => vec![],
        };
        for name in names {
            assert!((name.symbol as usize) < tree.symbol_rows().len());
            let _ = (tree.symbol(name.symbol), name.span.of(tree.text()));
        }
        if let Node::String(symbol) = row.node {
            assert!((symbol as usize) < tree.symbol_rows().len());
            let _ = tree.symbol(symbol);
        }
    }
    for number in [0, count as u32 / 2, count as u32 - 1] {
        assert_eq!(tree.outward(number).last(), Some(root));
    }
    assert!(tree.tokens().is_empty() && tree.row(count as u32).is_none() && tree.row(ABSENT).is_none());
    assert!(tree.symbol(tree.symbol_rows().len() as u32).is_none() && tree.symbol(ABSENT).is_none());
}

/// Every script of the fixed list that is accepted, in both editions: its rows pass, and are the same tree.
#[test]
fn each_script_of_the_list() {
    let (mut rest, mut rooms, mut scripts, mut other) = (LIST, Rooms::for_tokens(512), 0, 0);
    while let Some(case) = frame(&mut rest) {
        let Some((text, tokens)) = decode(case) else { continue };
        for edition in EDITIONS {
            let Ok(read) = rooms.parse_with(Builtins::NONE, text, &tokens, edition, 64) else { continue };
            let sent = Sent::of(&read, edition);
            let tree = sent.tree().unwrap();
            assert!(tree.rows().eq(read.rows()));
            for row in read.rows() {
                assert!(tree.children(row.number).eq(read.children(row.number)));
                assert!(tree.outward(row.number).eq(read.outward(row.number)));
            }
            let named = tree.with_text(text);
            for symbol in 0..=read.symbol_rows().len() as u32 {
                assert_eq!((tree.symbol(symbol), named.symbol(symbol)), (None, read.symbol(symbol)));
            }
            assert_eq!((tree.text(), named.text()), (&b""[..], text));
            walk(&tree);
            walk(&named);
            scripts += 1;
            // by the other edition: the same, unless a `return` has no child
            let bare = read.rows().any(|row| matches!(row.node, Node::Return(None)));
            let sent = Sent { edition: Edition(3 - edition.0), ..sent };
            assert_eq!(sent.refused().map(|(rule, _)| rule), bare.then_some(7));
            other += usize::from(bare);
        }
    }
    assert!(scripts > 500 && other > 0, "{scripts} scripts, {other} of edition 2 alone");
}

/// The fixed list of row sets that the program `verdicts` answers, in the same rooms: verdict and scratch are the stored ones.
#[test]
fn each_set_of_the_list() {
    let numbers = |frame: &[u8]| -> Vec<u32> {
        frame.as_chunks().0.iter().map(|bytes| u32::from_le_bytes(*bytes)).collect()
    };
    let (mut sets, mut verdicts, mut seen) = (SETS, VERDICTS, 0);
    while let Some((set, verdict)) = frame(&mut sets).zip(frame(&mut verdicts)) {
        let (set, verdict) = (numbers(set), numbers(verdict));
        // the edition, the counts, the rooms' lengths, and the rows
        let (head, rest) = set.split_at(8);
        let (nodes, rest) = rest.split_at(head[4] as usize);
        let (links, symbols) = rest.split_at(head[5] as usize);
        let mut scratch = vec![7; head[7] as usize];
        let counts = [head[1], head[2], head[3]];
        let taken = Tree::from_rows(nodes, links, symbols, counts, Edition(head[0]), &mut scratch);
        let told =
            taken.err().map_or([0; 3], |why| [why.code as u32, why.rule.map_or(0, u32::from), why.row]);
        assert_eq!([&told[..], &scratch].concat(), verdict, "set {seen}");
        if let Ok(tree) = taken {
            walk(&tree);
        }
        seen += 1;
    }
    assert!(seen > 300, "{seen} sets");
}

#[test]
fn guards() {
    let mut rooms = Rooms::for_tokens(16);
    for text in ["a", "f(x).y", "typed == 0 and refreshed"] {
        let tree = rooms.guard(text.as_bytes(), 64).unwrap();
        let last = tree.root().unwrap().number;
        assert_eq!(Sent::of(&tree, Edition::FIRST).refused(), Some((5, last)));
    }
}

/// Rows of `f(-a);`: f, a, the sign, the call, the root; each rule broken, in words.
#[test]
fn each_rule() {
    let good = Sent::read("f(-a);", Edition::FIRST);
    assert_eq!((good.counts(), good.refused()), ([5, 2, 2], None));
    let node = |row: usize, place: usize, number: u32| {
        let mut sent = good.clone();
        sent.nodes[NODE_WIDTH * row + place] = number;
        sent
    };
    let link = |row: usize, place: usize, number: u32| {
        let mut sent = good.clone();
        sent.links[LINK_WIDTH * row + place] = number;
        sent
    };
    let said = |sent: Sent| {
        assert_eq!(sent.refused(), model(&sent));
        sent.tree().unwrap_err().to_string()
    };
    assert_eq!(said(node(2, 0, 0)), "row 2 breaks rule 1: a kind is one of 1 to 26");
    assert_eq!(said(node(4, 0, 27)), "row 4 breaks rule 1: a kind is one of 1 to 26");
    let range = |row| format!("row {row} breaks rule 2: operators, Booleans, symbols and lists are in range");
    assert_eq!(said(node(2, 3, 2)), range(2)); // an operator
    assert_eq!(said(node(0, 3, 2)), range(0)); // a symbol
    assert_eq!(said(node(3, 5, 3)), range(3)); // a list's count
    assert_eq!(said(node(4, 3, ABSENT)), range(4)); // a list's start
    assert_eq!(said(node(2, 4, 2)), "row 2 breaks rule 3: a row that is named is an earlier one");
    assert_eq!(said(link(1, 0, 4)), "row 4 breaks rule 3: a row that is named is an earlier one");
    assert_eq!(said(link(0, 0, 1)), "row 1 breaks rule 4: every row but the last is named once");
    assert_eq!(said(node(2, 4, ABSENT)), "row 1 breaks rule 4: every row but the last is named once");
    let mut tailed = node(4, 4, 0);
    tailed.nodes[45] = 3;
    assert_eq!(said(tailed), "row 4 breaks rule 5: the last row is a block with no tail");
    let mut rootless = good.clone();
    rootless.nodes.truncate(40);
    assert_eq!(said(rootless), "row 3 breaks rule 5: the last row is a block with no tail");
    let none = Sent { nodes: vec![], links: vec![], symbols: vec![], edition: Edition::FIRST };
    assert_eq!(said(none), "row 0 breaks rule 5: the last row is a block with no tail");
    let mut left_over = good.clone();
    left_over.links.extend([0; 3]);
    assert_eq!(said(left_over), "row 4 breaks rule 6: lists follow each other, and have all links");
    let mut elsewhere = Sent::read("f();", Edition::FIRST);
    elsewhere.nodes[14] = 1;
    assert_eq!(said(elsewhere), "row 1 breaks rule 6: lists follow each other, and have all links");
    let bare = Sent { edition: Edition::FIRST, ..Sent::read("return;", Edition::SECOND) };
    assert_eq!(said(bare), "row 0 breaks rule 7: a child is there, unless it may be absent");
    assert_eq!(said(node(0, 8, 1)), "row 0 breaks rule 8: unused numbers are 0");
    assert_eq!(said(link(0, 1, 1)), "row 3 breaks rule 8: unused numbers are 0");
    assert_eq!(said(node(0, PARENT, 4)), "row 0 breaks rule 9: the parent is the row that names this one");
    assert_eq!(said(node(4, PARENT, 0)), "row 4 breaks rule 9: the parent is the row that names this one");
    assert!(Rule::ALL.iter().map(|&rule| rule as u32).eq(1..=9));
    assert!(Rule::from_u32(0).is_none() && Rule::from_u32(10).is_none());
    let error: &dyn std::error::Error = &node(0, 8, 1).tree().unwrap_err();
    assert_eq!(error.to_string(), "row 0 breaks rule 8: unused numbers are 0");
}

/// Counts, editions and scratch: what comes before any rule, and leaves scratch as it was.
#[test]
fn what_was_lent() {
    let Sent { mut nodes, mut links, mut symbols, .. } = Sent::read("f(-a);", Edition::FIRST);
    // the rooms have more than the counts say, and what is past them does not matter
    for room in [&mut nodes, &mut links, &mut symbols] {
        room.extend([ABSENT; 7]);
    }
    let mut scratch = [7; 12];
    let mut take = |n: [usize; 4], counts, edition| {
        scratch = [7; 12];
        let taken = Tree::from_rows(
            &nodes[..n[0]],
            &links[..n[1]],
            &symbols[..n[2]],
            counts,
            Edition(edition),
            &mut scratch[..n[3]],
        );
        let (code, text) = match taken {
            Ok(tree) => {
                walk(&tree);
                (0, String::new())
            }
            Err(why) => (why.code as u32, why.to_string()),
        };
        let left = if code == 0 { 0 } else { 7 };
        assert!(scratch[..n[3]].iter().all(|&number| number == left));
        assert!(scratch[n[3]..].iter().all(|&number| number == 7));
        (code, text)
    };
    let passes = (0, String::new());
    let lacks = (15, "there are not so many rows, or scratch is too small".to_string());
    let no_edition = (21, "the edition is neither 1 nor 2".to_string());
    let (just, counts) = ([50, 6, 4, 9], [5, 2, 2]);
    assert_eq!(take([57, 13, 11, 12], counts, 1), passes);
    assert_eq!(take(just, counts, 2), passes);
    for room in 0..4 {
        let mut less = just;
        less[room] -= 1;
        assert_eq!(take(less, counts, 1), lacks);
        assert_eq!(take(less, counts, 3), lacks);
    }
    for count in 0..3 {
        for number in [counts[count] + 1, ABSENT - 1, ABSENT] {
            let mut more = counts;
            more[count] = number;
            assert_eq!(take(just, more, 1), lacks);
        }
    }
    for edition in [0, 3, 258, ABSENT] {
        assert_eq!(take(just, counts, edition), no_edition);
        assert_eq!(take(just, [0; 3], edition), no_edition);
    }
}

/// Numbers without a pattern.
struct Dice(u64);

impl Dice {
    fn roll(&mut self, sides: usize) -> usize {
        self.0 = self.0.wrapping_mul(6_364_136_223_846_793_005).wrapping_add(1_442_695_040_888_963_407);
        (self.0 >> 33) as usize % sides
    }

    /// A number near a bound, or any.
    fn number(&mut self, bound: usize) -> u32 {
        match self.roll(8) {
            0 => ABSENT - self.roll(3) as u32,
            1 => (bound + self.roll(4)) as u32,
            _ => self.roll(bound + 1) as u32,
        }
    }

    /// Rows of a tree as no reader would write it: any kinds below any, any row that is still free, any spans.
    fn grown(&mut self, rows: usize) -> Sent {
        let edition = EDITIONS[self.roll(2)];
        let symbols = 1 + self.roll(3);
        let mut sent = Sent {
            nodes: vec![],
            links: vec![],
            symbols: (0..SYMBOL_WIDTH * symbols).map(|_| self.number(9)).collect(),
            edition,
        };
        let (mut free, mut parents) = (Vec::<u32>::new(), Vec::new());
        for row in 0..rows as u32 {
            let last = row + 1 == rows as u32;
            // no kind takes more than three children but by its list
            let kind = match 1 + self.roll(26) as u32 {
                _ if last => BLOCK,
                kind if layout(kind, edition).iter().filter(|slot| matches!(slot, Slot::Child)).count()
                    > free.len() =>
                {
                    10 + self.roll(5) as u32
                }
                kind => kind,
            };
            let mut numbers = vec![kind, self.number(12), self.number(12)];
            let slots = layout(kind, edition);
            let mut owed = slots.iter().filter(|slot| matches!(slot, Slot::Child)).count();
            let mut adopted = Vec::new();
            let mut adopt = |dice: &mut Dice, free: &mut Vec<u32>| {
                let child = free.swap_remove(dice.roll(free.len()));
                adopted.push(child);
                child
            };
            for &slot in slots {
                match slot {
                    Slot::Below(limit) => numbers.push(self.roll(limit as usize) as u32),
                    Slot::Child => {
                        owed -= 1;
                        numbers.push(adopt(self, &mut free));
                    }
                    Slot::Option if last || free.len() <= owed || self.roll(2) == 0 => numbers.push(ABSENT),
                    Slot::Option => numbers.push(adopt(self, &mut free)),
                    Slot::Symbol => numbers.push(self.roll(symbols) as u32),
                    Slot::Name => {
                        numbers.extend([self.roll(symbols) as u32, self.number(12), self.number(12)])
                    }
                    Slot::Nodes | Slot::Names | Slot::Entries => {
                        let first = (sent.links.len() / LINK_WIDTH) as u32;
                        let most = if slot == Slot::Names { 3 } else { free.len() - owed };
                        let count = if last { most } else { self.roll(most.min(3) + 1) };
                        let mut used = 0;
                        for _ in 0..count {
                            match slot {
                                Slot::Nodes => sent.links.extend([adopt(self, &mut free), 0, 0]),
                                Slot::Names => sent.links.extend([
                                    self.roll(symbols) as u32,
                                    self.number(12),
                                    self.number(12),
                                ]),
                                _ if free.len() <= owed => break,
                                _ => {
                                    let key = adopt(self, &mut free);
                                    let value = match self.roll(2) {
                                        1 if free.len() > owed => adopt(self, &mut free),
                                        _ => ABSENT,
                                    };
                                    sent.links.extend([key, value, 0]);
                                }
                            }
                            used += 1;
                        }
                        numbers.extend([first, used]);
                    }
                }
            }
            numbers.resize(PARENT, 0);
            numbers.push(ABSENT);
            sent.nodes.extend(numbers);
            parents.extend(adopted.into_iter().map(|child| (child, row)));
            free.push(row);
        }
        for (child, parent) in parents {
            sent.nodes[NODE_WIDTH * child as usize + PARENT] = parent;
        }
        sent
    }
}

/// Rows of strange trees pass, and those that are damaged have the model's verdict; what passes is walked over any text and
/// beside any names.
#[test]
fn anything_at_all() {
    let mut dice = Dice(20261117);
    let station = OwnedBuiltins::new(&["show"]);
    let mut broken = [0; 10];
    for turn in 0..20_000 {
        let rows = 1 + dice.roll(12);
        let mut sent = dice.grown(rows);
        assert_eq!((sent.refused(), model(&sent)), (None, None), "{sent:?}");
        for _ in 0..turn % 3 {
            let [nodes, links, _] = sent.counts();
            let number = dice.number(nodes.max(links) as usize + 1);
            match dice.roll(4) {
                0 if links > 0 => {
                    let at = dice.roll(sent.links.len());
                    sent.links[at] = number;
                }
                1 if dice.roll(4) == 0 => sent.nodes.truncate(NODE_WIDTH * dice.roll(nodes as usize + 1)),
                2 if dice.roll(4) == 0 => sent.links.truncate(LINK_WIDTH * dice.roll(links as usize + 1)),
                2 if dice.roll(4) == 0 => sent.edition = Edition(3 - sent.edition.0),
                _ if nodes > 0 => {
                    let at = dice.roll(sent.nodes.len());
                    sent.nodes[at] = number;
                }
                _ => {}
            }
        }
        let refused = sent.refused();
        assert_eq!(refused, model(&sent), "{sent:?}");
        broken[refused.map_or(0, |(rule, _)| rule as usize)] += 1;
        if let Ok(tree) = sent.tree() {
            walk(&tree);
            walk(&tree.with_text(b"let abc = 1;"));
            walk(&tree.with_builtins(station.lend()));
            walk(
                &tree.with_builtins(Builtins { text: b"\xff", rows: &[9, 2, ABSENT, 0, 1] }).with_text(b"a"),
            );
        }
    }
    assert!(broken.iter().all(|&times| times > 20), "{broken:?}");
}

/// Whether the same stands below two rows, and in the same order.
fn alike(one: &Tree, i: u32, other: &Tree, j: u32) -> bool {
    let [a, b] = [one.node_rows()[i as usize], other.node_rows()[j as usize]];
    let (below, under) = (one.children(i).collect::<Vec<_>>(), other.children(j).collect::<Vec<_>>());
    a[..3] == b[..3]
        && below.len() == under.len()
        && below.iter().zip(&under).all(|(a, b)| alike(one, a.number, other, b.number))
}

/// Drops statements, and holds what is left to the rules and to what stood there.
fn less(sent: &Sent, choice: &[bool], builtins: u32) -> Sent {
    let tree = sent.tree().unwrap();
    let held = Held { builtins, ..tree.held() };
    let mut left = sent.clone();
    let mut scratch = vec![7; held.scratch()];
    let Sent { nodes, links, symbols, .. } = &mut left;
    let after = keep(held, choice, Lent { nodes, links, symbols, scratch: &mut scratch }).unwrap().held();
    assert!(scratch.iter().all(|&number| number == 0));
    let used = [
        NODE_WIDTH as u32 * after.nodes,
        LINK_WIDTH as u32 * after.links,
        SYMBOL_WIDTH as u32 * after.symbols,
    ];
    for (room, used) in [nodes, links, symbols].into_iter().zip(used) {
        assert!(room.split_off(used as usize).iter().all(|&number| number == 0));
    }
    let built = SYMBOL_WIDTH * builtins as usize;
    assert_eq!((after.builtins, &left.symbols[..built]), (builtins, &sent.symbols[..built]));
    let new = left.tree().unwrap();
    let top =
        |tree: &Tree| tree.children(tree.root().unwrap().number).map(|row| row.number).collect::<Vec<_>>();
    let kept = top(&tree).into_iter().zip(choice).filter(|&(_, &kept)| kept);
    let pairs: Vec<_> = kept.map(|(row, _)| row).zip(top(&new)).collect();
    assert_eq!(pairs.len(), top(&new).len());
    assert!(pairs.iter().all(|&(old, now)| alike(&tree, old, &new, now)), "{choice:?} of {sent:?}");
    left
}

/// Statements of strange trees are dropped: what is left passes, and below each statement that is kept stands what stood there.
#[test]
fn less_of_anything() {
    let mut dice = Dice(20261119);
    for _ in 0..20_000 {
        let rows = 1 + dice.roll(12);
        let sent = dice.grown(rows);
        let [nodes, _, symbols] = sent.counts();
        let statements = sent.nodes[NODE_WIDTH * (nodes as usize - 1) + 4];
        let choice: Vec<bool> = (0..statements).map(|_| dice.roll(2) == 0).collect();
        let builtins = dice.roll(symbols as usize + 1) as u32;
        let left = less(&sent, &choice, builtins);
        let kept = choice.iter().filter(|&&kept| kept).count();
        assert_eq!(less(&left, &vec![false; kept], builtins).counts(), [1, 0, builtins]);
    }
}

/// Numbers that are rows by no stretch: an answer comes, and it is the model's.
#[test]
fn any_numbers() {
    let mut dice = Dice(20261118);
    for _ in 0..20_000 {
        let mut numbers =
            |count: usize, bound: usize| (0..count).map(|_| dice.number(bound)).collect::<Vec<_>>();
        let mut sent = Sent {
            nodes: numbers(NODE_WIDTH * 4, 5),
            links: numbers(LINK_WIDTH * 3, 4),
            symbols: numbers(SYMBOL_WIDTH * 3, 4),
            edition: Edition::FIRST,
        };
        for row in 0..4 {
            sent.nodes[NODE_WIDTH * row] = 1 + dice.roll(26) as u32;
        }
        sent.nodes.truncate(NODE_WIDTH * dice.roll(5));
        sent.edition = EDITIONS[dice.roll(2)];
        assert_eq!(sent.refused(), model(&sent), "{sent:?}");
    }
}

/// Spans that are in no text, and symbol rows, of every row and name: no bytes, and no panic.
#[test]
fn hostile_spans() {
    let text = "import m: n; fun f(x, y) { let z = x.y; return #{z: |w| w}; } f(\"s\", 1);";
    let spans =
        [(ABSENT, ABSENT), (ABSENT, 0), (3, 2), (0, ABSENT), (text.len() as u32, text.len() as u32 + 1)];
    for (start, end) in spans {
        let mut sent = Sent::read(text, Edition::FIRST);
        for row in sent.nodes.chunks_mut(NODE_WIDTH) {
            row[1..3].copy_from_slice(&[start, end]);
            let place = match row[0] {
                7..=10 | 18 => 4,
                16 => 5,
                _ => continue,
            };
            row[place..place + 2].copy_from_slice(&[start, end]);
        }
        // the links of a function, a lambda and an import are names
        let names = sent.nodes.chunks(NODE_WIDTH).flat_map(|row| match row[0] {
            18 => (row[6]..row[6] + row[7]).chain(0..0),
            19 => (row[3]..row[3] + row[4]).chain(0..0),
            26 => (row[3]..row[3] + row[4]).chain(row[5]..row[5] + row[6]),
            _ => (0..0).chain(0..0),
        });
        for name in names.collect::<Vec<u32>>() {
            sent.links[LINK_WIDTH * name as usize + 1..][..2].copy_from_slice(&[start, end]);
        }
        for row in sent.symbols.chunks_mut(SYMBOL_WIDTH) {
            row.copy_from_slice(&[start, end]);
        }
        let tree = sent.tree().unwrap().with_text(text.as_bytes());
        walk(&tree);
        assert!(tree.rows().all(|row| row.span == Span { start, end } && row.span.of(tree.text()).is_none()));
        assert!((0..tree.symbol_rows().len() as u32).all(|symbol| tree.symbol(symbol).is_none()));
    }
}

/// Without a text a symbol has no name, not even an empty one; the built-in names have theirs.
#[test]
fn names_without_a_text() {
    let station = OwnedBuiltins::new(&["show", "print"]);
    let mut rooms = Rooms::for_tokens_with(station.lend(), 16);
    let text = b"print(\"\", a);";
    let read = rooms.read_with(station.lend(), text, Edition::FIRST, 64).unwrap();
    let mut sent = Sent::of(&read, Edition::FIRST);
    sent.symbols[4..6].fill(0); // the empty string's place: at the start of any text
    let tree = sent.tree().unwrap();
    let names = |tree: Tree| {
        [0, 1, 2, 3, 4].map(|symbol| tree.symbol(symbol).map(String::from_utf8_lossy).map(String::from))
    };
    let some = |name: &str| Some(name.to_string());
    assert_eq!(names(tree), [const { None }; 5]);
    let tree = tree.with_builtins(station.lend());
    assert_eq!(names(tree), [some("show"), some("print"), None, None, None]);
    assert_eq!(names(tree.with_text(text)), [some("show"), some("print"), some(""), some("a"), None]);
    assert_eq!(names(tree.with_text(b"")), [some("show"), some("print"), some(""), None, None]);
}

/// How many rows are left where statements are dropped.
fn less_of(sent: &Sent, choose: impl Fn(u32) -> bool) -> [u32; 3] {
    let [nodes, ..] = sent.counts();
    let choice: Vec<bool> = (0..sent.nodes[NODE_WIDTH * (nodes as usize - 1) + 4]).map(choose).collect();
    let mut left = sent.clone();
    let held = sent.tree().unwrap().held();
    let mut scratch = vec![0; held.scratch()];
    let Sent { nodes, links, symbols, .. } = &mut left;
    let Held { nodes, links, symbols, .. } =
        keep(held, &choice, Lent { nodes, links, symbols, scratch: &mut scratch }).unwrap().held();
    [nodes, links, symbols]
}

/// A tree as deep as it has rows, and a list as long: each is walked to its end.
#[test]
fn deep_and_long() {
    const ROWS: u32 = 100_000;
    let parent = |row: u32| if row + 1 < ROWS { row + 1 } else { ABSENT };
    let mut deep =
        Sent { nodes: vec![], links: vec![ROWS - 2, 0, 0], symbols: vec![], edition: Edition::FIRST };
    let mut long = Sent { nodes: vec![], links: vec![], symbols: vec![], edition: Edition::SECOND };
    for row in 0..ROWS - 1 {
        let (kind, child) = if row == 0 { (14, 0) } else { (4, row - 1) };
        deep.nodes.extend([kind, 0, 0, child, 0, 0, 0, 0, 0, parent(row)]);
        long.nodes.extend([14, 0, 0, 0, 0, 0, 0, 0, 0, ROWS - 1]);
        long.links.extend([ROWS - 2 - row, 0, 0]);
    }
    deep.nodes.extend([BLOCK, 0, 0, 0, 1, ABSENT, 0, 0, 0, ABSENT]);
    long.nodes.extend([BLOCK, 0, 0, 0, ROWS - 1, ABSENT, 0, 0, 0, ABSENT]);
    let tree = deep.tree().unwrap();
    walk(&tree);
    assert_eq!(tree.outward(0).count(), ROWS as usize);
    let tree = long.tree().unwrap();
    walk(&tree);
    let last = ROWS - 1;
    assert!(tree.children(last).map(|row| row.number).eq((0..last).rev()));
    // and what is left of them
    assert_eq!(less_of(&deep, |_| true), [ROWS, 1, 0]);
    assert_eq!(less_of(&deep, |_| false), [1, 0, 0]);
    assert_eq!(less_of(&long, |row| row % 2 == 0), [ROWS / 2 + 1, ROWS / 2, 0]);
    // all the maps share one list, and each of its entries names one row: a check that went through each would not end soon
    let mut shared = Sent { nodes: vec![], links: vec![], symbols: vec![], edition: Edition::FIRST };
    for row in 0..ROWS {
        shared.nodes.extend([17, 0, 0, 0, if row == 0 { 0 } else { ROWS }, 0, 0, 0, 0, ABSENT]);
        shared.links.extend([0, ABSENT, 0]);
    }
    assert_eq!(shared.refused(), Some((4, 0)));
}

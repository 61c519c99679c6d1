//! What a list of cases covers: which productions, refusals and required kinds its answers show, and what rooms do.
use std::collections::BTreeMap;

use kaori::{
    recorder::Row,
    syntax::token::Token::{self, *},
};

use crate::{
    answer::{LIMIT, outcome},
    builtins::{Builtins, MAX_NAMES},
    case::{self, Case},
    could::Could,
    editions::Sort,
    judge, kinds,
    rooms::{Judge, Known, Lent, Rooms, SCRATCH},
    rows::{ABSENT, NO_KIND, Outcome, Rows},
    told::{Question, TOLD, Told},
};

#[rustfmt::skip]
const NODES: [&str; 26] = [
    "Binary", "LogicalAnd", "LogicalOr", "LogicalNot", "Unary", "Assign", "Variable", "Constant", "Ref",
    "Identifier", "String", "Number", "Boolean", "Nil", "FunctionCall", "PropertyAccess", "Map", "Function",
    "Lambda", "Block", "If", "WhileLoop", "Return", "Break", "Continue", "Import",
];

/// How often each thing is shown.
#[derive(Default)]
pub struct Coverage {
    cases: usize,
    shown: BTreeMap<String, usize>,
}

impl Coverage {
    pub fn of(inputs: impl Iterator<Item = Vec<u8>>) -> Coverage {
        let mut coverage = Coverage::default();
        inputs.for_each(|input| coverage.add(&input));
        coverage
    }

    fn add(&mut self, input: &[u8]) {
        self.cases += 1;
        let Some(case) = Case::decode(input) else { return self.show("bad input") };
        match outcome(&case, LIMIT) {
            Outcome::Accepted(rows) => {
                self.show("code 0");
                productions(&case, &rows).into_iter().for_each(|name| self.show(&name));
            }
            Outcome::Refused(refusal) => {
                self.show(&format!("code {}", refusal.code));
                if refusal.expected != NO_KIND {
                    self.show(&format!("expected {}", kinds::name(refusal.expected as u8)));
                }
            }
        }
    }

    /// Of frames of the program `batch` with rooms of their own.
    pub fn of_rooms(frames: impl Iterator<Item = Vec<u8>>) -> Coverage {
        let (mut coverage, mut judge, mut last) = (Coverage::default(), Judge::default(), Vec::new());
        for frame in frames {
            coverage.cases += 1;
            let Some(lent) = Lent::decode(&frame) else {
                coverage.show("no head");
                continue;
            };
            let Some(known) = judge.known(&lent) else {
                coverage.show("bad input");
                continue;
            };
            for name in in_rooms(known, lent.rooms) {
                coverage.show(&name);
            }
            if lent.is_guard {
                of_guard(&lent, known).into_iter().for_each(|name| coverage.show(&name));
            }
            if lent.input != last {
                coverage.show(match known.outcome() {
                    Outcome::Accepted(_) => "scripts: accepted, rows counted",
                    Outcome::Refused(_) => "scripts: refused",
                });
                if let (Some(names), Some(case)) = (&lent.names, Case::decode(&lent.input)) {
                    beside(names, &case).into_iter().for_each(|name| coverage.show(&name));
                }
                last = lent.input;
            }
        }
        coverage
    }

    /// Of frames of the program `batch` that ask about a refused token.
    pub fn of_questions(frames: impl Iterator<Item = Vec<u8>>) -> Coverage {
        let (mut coverage, mut could) = (Coverage::default(), Could::default());
        for frame in frames {
            coverage.cases += 1;
            let Some(question) = Question::decode(&frame) else {
                coverage.show("no head");
                continue;
            };
            let Some(case) = Case::decode(&question.input) else {
                coverage.show("bad input");
                continue;
            };
            let told = question.told(&case, &mut could);
            asked(&question, &told).into_iter().for_each(|name| coverage.show(&name));
        }
        coverage
    }

    fn show(&mut self, name: &str) {
        *self.shown.entry(name.into()).or_default() += 1;
    }

    /// Prints all that is shown, and what is missing of a list that is to cover the language; true if nothing is.
    pub fn print(&self) -> bool {
        self.print_missing(required())
    }

    /// The same of guards, in the rooms, beside the names and with the edition of a run.
    pub fn print_guards(&self, edition: Option<u32>, sort: Sort) -> bool {
        self.print_missing(required_of_guards(edition, sort))
    }

    fn print_missing(&self, mut missing: Vec<String>) -> bool {
        self.print_shown();
        missing.retain(|name| !self.shown.contains_key(name));
        missing.iter().for_each(|name| println!("missing: {name}"));
        println!("{} cases, {} things shown, {} missing", self.cases, self.shown.len(), missing.len());
        missing.is_empty()
    }

    pub fn print_shown(&self) {
        for (name, count) in &self.shown {
            println!("{count:7}  {name}");
        }
    }
}

/// What a list has to show that is to cover the language as `rows` can meet it.
fn required() -> Vec<String> {
    let mut names: Vec<String> = NODES.map(|node| format!("node {node}")).into();
    names.push("bad input".into());
    names.extend([0, 1, 5, 6, 7, 8, 9, 10, 11].map(|code| format!("code {code}")));
    let kinds = [Assign, Comma, Pipe, LeftParen, RightParen, LeftBrace, RightBrace, Semicolon, Identifier];
    names.extend(kinds.map(|kind| format!("expected {kind:?}")));
    names.extend((0..11).map(|operator| format!("Binary operator {operator}")));
    names.extend((0..2).map(|operator| format!("Unary operator {operator}")));
    names.extend((0..2).map(|value| format!("Boolean {value}")));
    for list in [
        "call arguments",
        "map entries",
        "function parameters",
        "lambda parameters",
        "block statements",
        "import bindings",
    ] {
        names.extend((0..3).map(|count| format!("{list}: {count}")));
    }
    names.extend((1..3).map(|count| format!("import path: {count}")));
    names.extend(OTHERS.map(String::from));
    names
}

/// What frames of guards have to show. No frame has a text that is too long (2), and no guard comes to a `for` statement (10).
fn required_of_guards(edition: Option<u32>, sort: Sort) -> Vec<String> {
    let mut names: Vec<String> = GUARDED.map(String::from).into();
    names.extend([1, 3, 4, 5, 6, 7, 17].map(|code| format!("code {code} at the door")));
    names.extend([5, 6, 7].map(|code| format!("code {code} at the door, before 17")));
    names.extend([0, 8, 9, 11].map(|code| format!("code 17, and without it {code}")));
    names.extend([0, 8, 9, 11].map(|code| format!("code {code}")));
    names.extend([Eof, RightParen, Comma, Identifier].map(|kind| format!("expected {kind:?}")));
    let nodes = (0..5).chain(9..16).map(|node| NODES[node]); // those of expressions in the profile, without Assign
    names.extend(nodes.map(|node| format!("node {node}")));
    names.extend((0..11).map(|operator| format!("Binary operator {operator}")));
    names.extend((0..2).map(|operator| format!("Unary operator {operator}")));
    names.extend((0..2).map(|value| format!("Boolean {value}")));
    names.extend((0..3).map(|count| format!("call arguments: {count}")));
    if edition.is_some() {
        names.extend(["code 21 at the door", "code 0 in edition 2", "call of Binary"].map(String::from));
    }
    if sort >= Sort::Tight {
        names.extend(["Node", "Link", "Symbol"].map(|row| format!("code 4 by a {row} row")));
        names.push("code 4 by a Node row, before 8 at its token".into());
    }
    if sort == Sort::Named {
        let words = ["code 18 at the door", "code 4 at the door, for the built-in rows"];
        let spelled = ["names: one that the script has", "names: one that a string's inside spells"];
        names.extend([words, spelled].as_flattened().iter().map(|name| name.to_string()));
    }
    names
}

#[rustfmt::skip]
const GUARDED: [&str; 12] = [
    "no head", "bad input", "code 0 in edition 1", "call of Identifier", "call of FunctionCall", "call of PropertyAccess",
    "property of Identifier", "property of FunctionCall", "property of PropertyAccess", "`, )`", "prefix `+`", "`( (`",
];

#[rustfmt::skip]
const OTHERS: [&str; 33] = [
    "block with a tail", "block without a tail", "if without else", "else with a block", "else with an if",
    "lambda of a block", "lambda of an expression", "map key alone", "map key and value",
    "call of Identifier", "call of FunctionCall", "call of PropertyAccess",
    "property of Identifier", "property of FunctionCall", "property of PropertyAccess",
    "`, )`", "`, |`", "`, }`", "`, ;`", "`: ;`", "`} ;`", "prefix `+`", "`( (`", "`else if`",
    "condition If", "statement Block", "statement If", "statement WhileLoop", "statement Function",
    "statement Import", "statement Assign", "tail Import", "tail Variable",
];

/// What is shown by a case in rooms of chosen sizes: of a 4 in reading, which row lacks room, and what else stands at its
/// token.
fn in_rooms(known: &Known, rooms: Rooms) -> Vec<String> {
    if let Some(refusal) = known.turned_away(rooms) {
        let with_symbols = |numbers: u32| known.turned_away([rooms[0], rooms[1], numbers, rooms[SCRATCH]]);
        let is_built_in =
            refusal.code == 4 && with_symbols(known.built_in()).is_none_or(|other| other.code != 4);
        let what = if is_built_in { ", for the built-in rows" } else { "" };
        return vec![format!("code {} at the door{what}", refusal.code)];
    }
    let Some(lacking) = known.lacking(rooms) else {
        return vec![match known.outcome() {
            Outcome::Accepted(_) => "code 0".into(),
            Outcome::Refused(refusal) => format!("code {}", refusal.code),
        }];
    };
    let row = format!("code 4 by a {:?} row", lacking.row);
    let mut names = vec![row.clone()];
    match known.outcome() {
        Outcome::Accepted(_) => names.push(format!("{row} of an accepted script")),
        Outcome::Refused(refusal) if refusal.at as usize == lacking.at => {
            names.push(format!("{row}, before {} at its token", refusal.code));
        }
        Outcome::Refused(_) => {}
    }
    let at_token = known.asked().iter().filter(|asked| asked.at == lacking.at);
    if lacking.row != Row::Symbol && at_token.clone().any(|asked| asked.row == Row::Symbol) {
        names.push(format!("{row}, before a symbol row at its token"));
    }
    names
}

/// What is shown by a guard: what it is made of, or which kind is required, and what a 17 comes before and after.
fn of_guard(lent: &Lent, known: &Known) -> Vec<String> {
    let Some(case) = Case::decode(&lent.input) else { return Vec::new() };
    let has_outside = case.tokens.iter().any(|token| kinds::OUTSIDE.contains(&token.kind));
    match known.turned_away(lent.rooms) {
        Some(refusal) if refusal.code == 17 => {
            let names = lent.names.clone().unwrap_or_default();
            let code = match judge::read(&names, &case, lent.call()).outcome {
                Outcome::Accepted(_) => 0,
                Outcome::Refused(refusal) => refusal.code,
            };
            vec![format!("code 17, and without it {code}")]
        }
        Some(refusal) if has_outside => vec![format!("code {} at the door, before 17", refusal.code)],
        Some(_) => Vec::new(),
        None => match known.comes(lent.rooms) {
            Outcome::Accepted(rows) => {
                let edition = format!("code 0 in edition {}", lent.call().terms.edition);
                [vec![edition], productions(&case, &rows)].concat()
            }
            Outcome::Refused(refusal) if refusal.expected != NO_KIND => {
                vec![format!("expected {}", kinds::name(refusal.expected as u8))]
            }
            Outcome::Refused(_) => Vec::new(),
        },
    }
}

/// What is shown by a question about a token: of which code and edition something is told, how many kinds could have stood there
/// and how many constructs are open.
fn asked(question: &Question, told: &Told) -> Vec<String> {
    let Question { terms, code, .. } = question;
    if *told == Told::default() {
        let what = if TOLD.contains(code) { format!("code {code}") } else { "another code".into() };
        return vec![format!("nothing told: {what}")];
    }
    let open = match told.chain.len() {
        few @ 0..4 => few.to_string(),
        4..16 => "4 to 15".into(),
        16..64 => "16 to 63".into(),
        all => all.to_string(),
    };
    vec![
        format!("code {code}"),
        format!("code {code} in edition {}", terms.edition),
        format!("kinds: {}", told.members().count()),
        format!("set {:#x} in edition {}", told.kinds, terms.edition),
        format!("open: {open}"),
    ]
}

/// What is shown by built-in names beside a case.
fn beside(names: &Builtins, case: &Case) -> Vec<String> {
    let Some(words) = names.words() else { return vec!["names: wrong".into()] };
    let mut shown = vec![match words.len() {
        0 => "names: none".into(),
        MAX_NAMES => format!("names: {MAX_NAMES}"),
        1..=8 => "names: 1 to 8".into(),
        _ => "names: 9 and more".to_string(),
    }];
    let mut show = |is_shown: bool, name: &str| shown.extend(is_shown.then(|| format!("names: {name}")));
    let pairs = || names.places().windows(2);
    show(names.rows.len() % 2 == 1, "a number left over");
    show(pairs().any(|pair| pair[1][0] < pair[0][0]), "a row that goes back");
    show(pairs().any(|pair| pair[1][0] < pair[0][1] && pair[0][0] < pair[1][1]), "rows that overlap");
    show(names.text.iter().any(|byte| *byte > 127), "a byte over 127 between them");
    let spelled = |kind: u8| {
        let quotes = (kind == kinds::STRING) as u32;
        let inside = move |token: &case::Token| case::Token {
            start: token.start + quotes,
            end: token.end - quotes,
            ..*token
        };
        case.tokens.iter().filter(move |token| token.kind == kind).filter_map(move |token| {
            case.lexeme(*token).filter(|lexeme| kinds::fits(kind, lexeme))?;
            str::from_utf8(case.lexeme(inside(token))?).ok()
        })
    };
    show(spelled(kinds::IDENTIFIER).any(|word| words.contains(&word)), "one that the script has");
    show(spelled(kinds::STRING).any(|word| words.contains(&word)), "one that a string's inside spells");
    let begins = |word: &str| words.iter().any(|name| *name != word && name.starts_with(word));
    show(spelled(kinds::IDENTIFIER).any(begins), "one that begins as a name of the script");
    let begun = |word: &str| words.iter().any(|name| *name != word && word.starts_with(name));
    show(spelled(kinds::IDENTIFIER).any(begun), "one that a name of the script begins as");
    shown
}

fn productions(case: &Case, rows: &Rows) -> Vec<String> {
    let mut names = Vec::new();
    let node = |id: u32| NODES[rows.nodes[id as usize][0] as usize - 1];
    for row in &rows.nodes {
        let [kind, _, _, a, b, c, d, e, ..] = *row;
        names.push(format!("node {}", NODES[kind as usize - 1]));
        match kind {
            1 => names.push(format!("Binary operator {a}")),
            5 => names.push(format!("Unary operator {a}")),
            13 => names.push(format!("Boolean {a}")),
            15 => names.extend([format!("call arguments: {c}"), format!("call of {}", node(a))]),
            16 => names.push(format!("property of {}", node(a))),
            17 => {
                names.push(format!("map entries: {b}"));
                for link in &rows.links[a as usize..(a + b) as usize] {
                    let value = if link[1] == ABSENT { "alone" } else { "and value" };
                    names.push(format!("map key {value}"));
                }
            }
            18 => names.push(format!("function parameters: {e}")),
            19 => {
                names.push(format!("lambda parameters: {b}"));
                let body = if node(c) == "Block" { "a block" } else { "an expression" };
                names.push(format!("lambda of {body}"));
            }
            20 => {
                names.push(format!("block statements: {b}"));
                for link in &rows.links[a as usize..(a + b) as usize] {
                    names.push(format!("statement {}", node(link[0])));
                }
                if c == ABSENT {
                    names.push("block without a tail".into());
                } else {
                    names.extend(["block with a tail".into(), format!("tail {}", node(c))]);
                }
            }
            21 => {
                names.push(format!("condition {}", node(a)));
                names.push(match c {
                    ABSENT => "if without else".into(),
                    _ if node(c) == "If" => "else with an if".into(),
                    _ => "else with a block".into(),
                });
            }
            26 => names.extend([format!("import path: {b}"), format!("import bindings: {d}")]),
            _ => {}
        }
    }
    for pair in case.tokens.windows(2) {
        let is = |first: Token, second: Token| (pair[0].kind, pair[1].kind) == (first as u8, second as u8);
        let pairs = [
            (Comma, RightParen, "`, )`"),
            (Comma, Pipe, "`, |`"),
            (Comma, RightBrace, "`, }`"),
            (Comma, Semicolon, "`, ;`"),
            (Colon, Semicolon, "`: ;`"),
            (RightBrace, Semicolon, "`} ;`"),
            (Plus, Plus, "prefix `+`"),
            (LeftParen, LeftParen, "`( (`"),
            (Else, If, "`else if`"),
        ];
        names.extend(pairs.into_iter().filter(|pair| is(pair.0, pair.1)).map(|pair| pair.2.to_string()));
    }
    names
}

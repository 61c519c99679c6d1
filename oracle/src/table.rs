//! Tables of cases for antt, in the form of the sample table of crate `grammar`, and what proves them right.
//! All generated antt text comes from this file.
use crate::{
    builtins::Builtins,
    case::Case,
    numbers::Number,
    rooms::{Lent, Rooms},
    rows::{self, Outcome},
    show,
    terms::SECOND,
};

/// A row of a table: the table's `specs/Cases.antt` and `proofs/Cases.antt` of crate `grammar`.
pub trait Row: Clone {
    /// The file of crate `grammar`'s proofs that `proofs` is made from.
    const MODEL: &'static str;
    fn specs(rows: &[Self]) -> String;
    fn proofs(model: &str) -> String;
    /// How large a case is, and how it is shown.
    fn size(&self) -> usize;
    fn shown(&self) -> String;
}

/// A case with its entry and edition, its built-in names, its limit, its rooms and what the original made of it.
#[derive(Clone)]
pub struct Entry {
    pub is_guard: bool,
    pub edition: u32,
    pub names: Builtins,
    pub case: Case,
    pub limit: u32,
    pub rooms: Rooms,
    pub outcome: Outcome,
}

/// Enough for the reader of `grammar/proofs/Reader.antt` on scripts of some 30 tokens.
const FUEL: usize = 1_000;

impl Row for Entry {
    const MODEL: &'static str = "Samples.antt";

    fn specs(rows: &[Entry]) -> String {
        let rows: String = rows.iter().map(|entry| format!("    {} ∷\n", sample(entry))).collect();
        format!(
            "\
-- Cases and what the Rust makes of them.
use mathlib.Core.List.{{List, [], _∷_}}
use Rattle·grammar·specs.specs.Edition.{{Edition}}
use Rattle·grammar·specs.specs.Outcome.{{refusal}}
use Rattle·grammar·specs.specs.Profile.{{Profile}}
use Rattle·grammar·specs.specs.Refusal.{{refused}}
use Rattle·grammar·specs.specs.Samples.{{Sample, writes}}

abbrev pub cases : List Sample
cases =
{rows}    []
"
        )
    }

    /// As the model, of `cases`, with more fuel.
    fn proofs(model: &str) -> String {
        let model = replaced(
            model,
            "specs.Samples.{Sample, All-right, samples, points, tight, named, later, guards}",
            "specs.Samples.{Sample, All-right}\nuse Rattle·grammar·specs.specs.Cases.{cases}",
        );
        let model = replaced(&model, " 400 (form p)", &format!(" {FUEL} (form p)"));
        let model = replaced(
            &model,
            "pub samples-right : All-right (samples ++ points ++ tight ++ named ++ later ++ guards)",
            "pub cases-right : All-right cases",
        );
        replaced(
            &model,
            "samples-right = all-right (samples ++ points ++ tight ++ named ++ later ++ guards) refl",
            "cases-right = all-right cases refl",
        )
    }

    fn size(&self) -> usize {
        self.case.encode().len()
    }

    fn shown(&self) -> String {
        let Entry { is_guard, edition, names, case, limit, rooms, .. } = self.clone();
        let (edition, names, input) = (Some(edition), Some(names), case.encode());
        let case = show::case(&Lent { is_guard, edition, names, limit, rooms, input }.encode());
        format!("{case}Rust\n         {:?}\n", self.outcome)
    }
}

impl Row for Number {
    const MODEL: &'static str = "Spelled.antt";

    fn specs(rows: &[Number]) -> String {
        let rows: String = rows.iter().map(|number| format!("    {} ∷\n", facts(number))).collect();
        format!(
            "\
-- Texts, which of them are NumberLiterals, and which the Rust library's f64 reading takes.
use mathlib.Core.List.{{List, [], _∷_}}
use Rattle·grammar·specs.specs.Spelled.{{Spelled, fits, misfits, float, no-float}}

abbrev pub cases : List Spelled
cases =
{rows}    []
"
        )
    }

    fn proofs(model: &str) -> String {
        let model = replaced(
            model,
            "Holds, All-hold, lexemes}",
            "Holds, All-hold}\nuse Rattle·grammar·specs.specs.Cases.{cases}",
        );
        let model =
            replaced(&model, "pub lexemes-right : All-hold lexemes", "pub cases-right : All-hold cases");
        replaced(&model, "lexemes-right = so (all-hold lexemes) tt", "cases-right = so (all-hold cases) tt")
    }

    fn size(&self) -> usize {
        self.text.len()
    }

    fn shown(&self) -> String {
        format!("Rust\n         {self:?}\n")
    }
}

fn replaced(text: &str, old: &str, new: &str) -> String {
    assert!(text.matches(old).count() == 1, "the model has not one `{old}`: adapt table.rs");
    text.replace(old, new)
}

fn sample(Entry { is_guard, edition, names, case, limit, rooms, outcome }: &Entry) -> String {
    let built_in = [list(names.text.iter().map(|byte| *byte as u32)), list(names.rows.iter().copied())];
    let names = format!("names = record {{ text = {}; rows = {} }}", built_in[0], built_in[1]);
    let text = list(case.text.iter().map(|byte| *byte as u32));
    let tokens = list(case.tokens.iter().flat_map(|token| [token.kind as u32, token.start, token.end]));
    let outcome = match outcome {
        Outcome::Accepted(rows::Rows { nodes, links, symbols }) => {
            let [nodes, links, symbols] =
                [nodes.as_flattened(), links.as_flattened(), symbols.as_flattened()]
                    .map(|numbers| list(numbers.iter().copied()));
            format!("writes {nodes} {links} {symbols}")
        }
        Outcome::Refused(refusal) => {
            format!("refusal (refused {} {} {})", refusal.code, refusal.at, refusal.expected)
        }
    };
    let [nodes, links, symbols, _] = rooms;
    let rooms = format!("space = record {{ nodes = {nodes}; links = {links} }}; room = {symbols}");
    let edition = if *edition == SECOND { "second" } else { "first" };
    let profile = if *is_guard { "guard" } else { "script" };
    let terms = format!("profile = Profile.{profile}; edition = Edition.{edition}; limit = {limit}");
    format!("record {{ {terms}; {names}; text = {text}; tokens = {tokens}; {rooms}; outcome = {outcome} }}")
}

fn list(numbers: impl Iterator<Item = u32>) -> String {
    let items: String = numbers.map(|number| format!("{number} ∷ ")).collect();
    format!("({items}[])")
}

fn facts(Number { text, is_float, fits }: &Number) -> String {
    let float = if *is_float { "float" } else { "no-float" };
    let fits = if *fits { "fits" } else { "misfits" };
    format!("{float} {text:?} ∷ {fits} 40 {text:?}")
}

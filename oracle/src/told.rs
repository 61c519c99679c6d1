//! Request L2: what could have stood at a refused token, and what was open there. How it is asked for in a frame of the program
//! `batch`, and what its answer is. The kinds come from could.rs, and the chain from the derived parser that counts openings.
use std::fmt::Write;

use kaori::compiler::Opening;

use crate::{
    answer::LIMIT,
    builtins::Builtins,
    case::{Case, number},
    could::Could,
    door, judge,
    kinds::EOF,
    list::{Gaps, Word, printed},
    random::Random,
    rows::{NO_KIND, Outcome, Refusal},
    terms::{FIRST, SECOND, Terms},
};

const MARK: [u8; 2] = *b"RP";
/// The bytes before the input: the mark and four numbers.
pub const HEAD: usize = 18;
/// The refusals of which something is told, and the one that has no set.
pub const TOLD: std::ops::RangeInclusive<u32> = 8..=DEEP;
const DEEP: u32 = 11;
/// The entries of a chain.
const ENTRIES: usize = 64;
const BAD: &[u8] = b"bad input\n";

/// An input of `rows`, its edition and limit, and a code and a token that are asked about.
#[derive(Clone, PartialEq, Eq, Debug)]
pub struct Question {
    pub terms: Terms,
    pub code: u32,
    pub at: u32,
    pub input: Vec<u8>,
}

impl Question {
    pub fn encode(&self) -> Vec<u8> {
        let Terms { edition, limit } = self.terms;
        let numbers = [edition, limit, self.code, self.at].map(u32::to_le_bytes);
        [&MARK, numbers.as_flattened(), &self.input].concat()
    }

    /// None: the frame is of another form.
    pub fn decode(frame: &[u8]) -> Option<Question> {
        let mut rest = frame.strip_prefix(&MARK)?;
        let terms = Terms { edition: number(&mut rest)?, limit: number(&mut rest)? };
        let [code, at] = [number(&mut rest)?, number(&mut rest)?];
        Some(Question { terms, code, at, input: rest.to_vec() })
    }

    pub fn answer(&self, could: &mut Could) -> Vec<u8> {
        match Case::decode(&self.input) {
            Some(case) => self.told(&case, could).lines().into_bytes(),
            None => BAD.into(),
        }
    }

    /// What is told of the case. The call has no text: the kinds up to the token decide, each with its plainest lexeme. If the case
    /// itself comes to be read, the same has to come of it.
    pub fn told(&self, case: &Case, could: &mut Could) -> Told {
        let Terms { edition, limit } = self.terms;
        let kinds: Vec<u8> = case.tokens.iter().map(|token| token.kind).collect();
        let upto = kinds.get(..=self.at as usize).filter(|upto| upto.iter().all(|kind| *kind <= EOF));
        let is_right = [FIRST, SECOND].contains(&edition) && (1..=LIMIT).contains(&limit);
        let Some(upto) = upto.filter(|_| is_right && TOLD.contains(&self.code)) else {
            return Told::default();
        };

        let read = upto.iter().position(|kind| *kind == EOF).unwrap_or(upto.len()); // an Eof ends the list
        let words: Vec<_> = upto[..read].iter().map(|kind| Word::plain(*kind)).collect();
        let open = self.open(&printed(&words, Gaps::Space, &mut Random::of(0, 0)));
        if door::refusal(case, self.terms).is_none() {
            assert_eq!(open, self.open(case), "lexemes change what is open");
        }
        let Some(chain) = open else { return Told::default() };
        let (before, refused) = upto.split_at(self.at as usize);
        let kinds = if self.code == DEEP { 0 } else { could.stand(edition, before) };
        assert!(kinds & 1 << refused[0] == 0, "the refused kind could have stood there: {upto:?}");
        assert!(self.code != DEEP || chain.len() == limit as usize, "as many are open as the limit");
        Told { kinds, chain }
    }

    /// The openings at the token, if reading is refused there by the code.
    fn open(&self, case: &Case) -> Option<Vec<Opening>> {
        let reading = judge::read(&Builtins::default(), case, self.terms);
        match reading.outcome {
            Outcome::Refused(Refusal { code, at, .. }) if (code, at) == (self.code, self.at) => {
                Some(reading.chain)
            }
            _ => None,
        }
    }
}

/// Kinds, a binary digit each, and open constructs, outermost first. Mostly nothing.
#[derive(Clone, PartialEq, Eq, Debug, Default)]
pub struct Told {
    pub kinds: u64,
    pub chain: Vec<Opening>,
}

impl Told {
    pub fn members(&self) -> impl Iterator<Item = u8> {
        (0..=EOF).filter(|kind| self.kinds & 1 << kind != 0)
    }

    /// The two halves of the set, how many kinds, the lowest and how many constructs in a line; and then the entries of the chain,
    /// sort and token each. Each number after a blank.
    pub fn lines(&self) -> String {
        let halves = [self.kinds as u32, (self.kinds >> 32) as u32];
        let [count, open] = [self.members().count(), self.chain.len()].map(|count| count as u32);
        let lowest = self.members().next().map_or(NO_KIND, u32::from);
        let mut entries = [[0; 2]; ENTRIES];
        for (entry, Opening { sort, at }) in entries.iter_mut().zip(&self.chain) {
            *entry = [*sort as u32, *at as u32];
        }
        let mut text = String::new();
        for line in [&[halves[0], halves[1], count, lowest, open], entries.as_flattened()] {
            line.iter().for_each(|number| write!(text, " {number}").unwrap());
            text.push('\n');
        }
        text
    }
}

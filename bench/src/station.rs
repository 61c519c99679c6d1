//! A station's scripts: one of the inputs 32 times, each copy in a place of its own, to be read in one call or in 32.
use kaori_syntax::{
    ANSWER_WIDTH, Builtins, Edition, LINK_WIDTH, Lent, MAX_SCRIPTS, NODE_WIDTH, Rooms, SCRATCH_WIDTH,
    SYMBOL_WIDTH, Station, TOKEN_WIDTH, TurnedAway, parse_scripts, read_scripts,
};

use crate::{LIMIT, inputs::Input};

pub struct Copies<'a> {
    builtins: Builtins<'a>,
    /// For the calls one by one: a text and a list each, and rooms of its own.
    pairs: Vec<(String, Vec<u32>)>,
    texts: Vec<String>,
    rooms: Vec<Rooms>,
    /// For one call over slices: all joined before, and rooms in parts.
    text: Vec<u8>,
    list: Vec<u32>,
    cuts: Vec<u32>,
    part: u32,
    parts: Rooms,
    answers: Vec<u32>,
    /// For one call that joins them itself.
    station: Station,
}

impl<'a> Copies<'a> {
    pub fn of(input: &'a Input) -> Copies<'a> {
        let (text, list) = (input.text.as_bytes(), &input.tokens);
        let builtins = input.builtins.lend();
        let station = Station::for_tokens_with(builtins, MAX_SCRIPTS, list.len() / TOKEN_WIDTH);
        let room = |width: usize| vec![0; width * station.rows() * MAX_SCRIPTS];
        Copies {
            builtins,
            pairs: vec![(input.text.clone(), list.clone()); MAX_SCRIPTS],
            texts: vec![input.text.clone(); MAX_SCRIPTS],
            rooms: vec![input.rooms(); MAX_SCRIPTS],
            text: text.repeat(MAX_SCRIPTS),
            list: list.repeat(MAX_SCRIPTS),
            cuts: (1..=MAX_SCRIPTS)
                .flat_map(|n| [n * text.len(), n * list.len()].map(|end| end as u32))
                .collect(),
            part: station.rows() as u32,
            parts: Rooms {
                nodes: room(NODE_WIDTH),
                links: room(LINK_WIDTH),
                symbols: room(SYMBOL_WIDTH),
                scratch: room(SCRATCH_WIDTH),
                list: list.repeat(MAX_SCRIPTS),
            },
            answers: vec![0; ANSWER_WIDTH * MAX_SCRIPTS],
            station,
        }
    }

    /// 32 calls from the tokens, and from the texts. Each answers how many scripts were read.
    pub fn parse_calls(&mut self) -> usize {
        let parse = |((text, list), rooms): (&(String, Vec<u32>), &mut Rooms)| {
            rooms.parse_with(self.builtins, text.as_bytes(), list, Edition::FIRST, LIMIT).is_ok()
        };
        self.pairs.iter().zip(&mut self.rooms).map(parse).filter(|&read| read).count()
    }

    pub fn read_calls(&mut self) -> usize {
        let read = |(text, rooms): (&String, &mut Rooms)| {
            rooms.read_with(self.builtins, text.as_bytes(), Edition::FIRST, LIMIT).is_ok()
        };
        self.texts.iter().zip(&mut self.rooms).map(read).filter(|&read| read).count()
    }

    /// One call over slices.
    pub fn parse_joined(&mut self) -> Result<usize, TurnedAway> {
        let Rooms { nodes, links, symbols, scratch, .. } = &mut self.parts;
        let rooms = Lent { nodes, links, symbols, scratch };
        let (text, list, cuts, answers) = (&self.text, &self.list, &self.cuts, &mut self.answers);
        parse_scripts(self.builtins, text, list, cuts, Edition::FIRST, LIMIT, self.part, rooms, answers)?;
        Ok(self.read())
    }

    pub fn read_joined(&mut self) -> Result<usize, TurnedAway> {
        let Rooms { nodes, links, symbols, scratch, list } = &mut self.parts;
        let rooms = Lent { nodes, links, symbols, scratch };
        let (text, cuts, answers) = (&self.text, &self.cuts, &mut self.answers);
        read_scripts(self.builtins, text, list, cuts, Edition::FIRST, LIMIT, self.part, rooms, answers)?;
        Ok(self.read())
    }

    fn read(&self) -> usize {
        self.answers.chunks(ANSWER_WIDTH).filter(|answer| answer[0] == 0).count()
    }

    /// One call that joins them first.
    pub fn parse_station(&mut self) -> Result<usize, TurnedAway> {
        let scripts = self.station.parse_with(self.builtins, &self.pairs, Edition::FIRST, LIMIT)?;
        Ok(scripts.iter().filter(Result::is_ok).count())
    }

    pub fn read_station(&mut self) -> Result<usize, TurnedAway> {
        let scripts = self.station.read_with(self.builtins, &self.texts, Edition::FIRST, LIMIT)?;
        Ok(scripts.iter().filter(Result::is_ok).count())
    }
}

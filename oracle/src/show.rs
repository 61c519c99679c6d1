//! Cases and answers for people to read.
use crate::{
    case::Case,
    drops::{Dropping, Left as Kept},
    kinds::name,
    loads::{Left, Load},
    rooms::{Lent, WIDTHS},
    rows::NODE_WIDTH,
    told::Question,
    verdicts::RowSet,
};

pub fn case(input: &[u8]) -> String {
    if let Some(Question { terms, code, at, input }) = Question::decode(input) {
        let asked =
            format!("edition  {}\nlimit    {}\nasked    code {code} at {at}\n", terms.edition, terms.limit);
        return case(&input) + &asked;
    }
    if let Some(Lent { is_guard, edition, names, limit, rooms, input }) = Lent::decode(input) {
        let rows: Vec<_> = rooms.iter().zip(WIDTHS).map(|(size, width)| (size / width).to_string()).collect();
        let rows = rows.join(" ");
        let names = names.map_or(String::new(), |names| {
            format!("names    \"{}\" {:?}\n", names.text.escape_ascii(), names.rows)
        });
        let edition = edition.map_or(String::new(), |edition| format!("edition  {edition}\n"));
        let lent = format!("limit    {limit}\nrooms    {rooms:?} numbers, {rows} rows\n");
        let guard = if is_guard { "entry    guard\n" } else { "" };
        return format!("{}{guard}{names}{edition}{lent}", case(&input));
    }
    let Some(case) = Case::decode(input) else {
        return format!("bytes    {}\n", hex(input));
    };
    let token = |token: &crate::case::Token| format!("{} {}..{}", name(token.kind), token.start, token.end);
    let tokens: Vec<_> = case.tokens.iter().map(token).collect();
    format!("text     \"{}\"\ntokens   {}\n", case.text.escape_ascii(), tokens.join(", "))
}

pub fn answer(output: &[u8]) -> String {
    let text = String::from_utf8_lossy(output);
    text.lines().map(|line| format!("         {line}\n")).collect()
}

/// A row set: what is lent, and then its rows. A row past the count has no number.
pub fn row_set(set: &RowSet) -> String {
    let RowSet { edition, counts, rooms, scratch } = set;
    let [nodes, links, symbols] = rooms;
    let sizes = [nodes.len(), links.len(), symbols.len(), *scratch as usize];
    let mut text = format!("edition  {edition}\ncounts   {counts:?}\nrooms    {sizes:?} numbers\n");
    let widths = [NODE_WIDTH, 3, 2];
    for (((room, width), count), lead) in rooms.iter().zip(widths).zip(counts).zip(["", "link ", "sym "]) {
        for (number, row) in room.chunks(width).enumerate() {
            let is_counted = row.len() == width && number < *count as usize;
            let lead = if is_counted { format!("{lead}{number}") } else { format!("{lead}-") };
            text += &format!("{lead:<9}{}\n", numbers(row));
        }
    }
    text
}

/// The verdict on a row set, and scratch as it was left.
pub fn verdict(answer: &[u32]) -> String {
    let (verdict, scratch) = answer.split_at(answer.len().min(3));
    let left = match scratch.first() {
        None => "empty".to_string(),
        Some(first) if scratch.iter().all(|number| number == first) => {
            format!("{} times {first}", scratch.len())
        }
        _ => numbers(scratch),
    };
    format!("         {}\nscratch  {left}\n", numbers(verdict))
}

/// A station's call: its scripts where its cuts are right, and otherwise what is joined.
pub fn load(load: &Load) -> String {
    let Load { source, terms, part, names, text, list, cuts, rooms, answers } = load;
    let mut shown = format!(
        "lists    {source:?}\nedition  {}\nlimit    {}\npart     {part} rows\n",
        terms.edition, terms.limit
    );
    shown += &format!("names    \"{}\" {:?}\n", names.text.escape_ascii(), names.rows);
    shown += &format!("cuts     {cuts:?} of {} bytes and {} numbers\n", text.len(), list.len());
    shown += &format!("rooms    {rooms:?} numbers, answers {answers}\n");
    if !load.faults().is_empty() {
        return shown + &format!("text     \"{}\"\nlist     {}\n", text.escape_ascii(), numbers(list));
    }
    for (script, [bytes, places]) in load.scripts().into_iter().enumerate() {
        let (text, list) = (&text[bytes], &list[places]);
        shown += &format!("{script:<9}\"{}\"\n         {}\n", text.escape_ascii(), numbers(list));
    }
    shown
}

/// What a call leaves.
pub fn left(left: &Left) -> String {
    let mut shown = format!("code     {}\n", left.code);
    for (name, list) in left.lists() {
        shown += &format!("{name:<9}{}\n", numbers(list));
    }
    shown
}

/// A call that drops statements.
pub fn dropping(call: &Dropping) -> String {
    let Dropping { set, builtins, choice } = call;
    format!("{}builtins {builtins}\nchoice   {choice:?}\n", row_set(set))
}

/// What such a call answers and leaves.
pub fn kept(left: &Kept) -> String {
    let mut shown = format!("answer   {}\n", numbers(&left.answer));
    for (name, room) in ["nodes", "links", "symbols", "scratch"].iter().zip(&left.rooms) {
        shown += &format!("{name:<9}{}\n", numbers(room));
    }
    shown
}

fn numbers(numbers: &[u32]) -> String {
    numbers.iter().map(u32::to_string).collect::<Vec<_>>().join(" ")
}

fn hex(bytes: &[u8]) -> String {
    bytes.iter().map(|byte| format!("{byte:02X} ")).collect()
}

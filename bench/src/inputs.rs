//! The scripts that are timed.
use kaori_syntax::{Edition, LINK_WIDTH, NODE_WIDTH, OwnedBuiltins, Refusal, Rooms, SYMBOL_WIDTH, Tree};

pub struct Input {
    pub name: &'static str,
    pub text: String,
    /// The built-in names that stand beside it: none, but for the inputs that are about them.
    pub names: &'static [&'static str],
    pub builtins: OwnedBuiltins,
    /// Three numbers a token, the Eof last.
    pub tokens: Vec<u32>,
    /// Whether its ratio counts for `typical` in the last line.
    pub typical: bool,
    /// Whether the answer is a refusal.
    pub refused: bool,
    /// How many numbers there are in rooms of as many rows as there are tokens, with a symbol row more for each built-in name,
    /// and how many of these are set to zero.
    pub lent: usize,
    pub cleared: usize,
}

impl Input {
    /// Rooms for it.
    pub fn rooms(&self) -> Rooms {
        Rooms::for_tokens_with(self.builtins.lend(), self.tokens.len() / 3)
    }

    /// One call, from its text and these tokens.
    pub fn parse<'a>(
        &'a self,
        rooms: &'a mut Rooms,
        tokens: &'a [u32],
        limit: u32,
    ) -> Result<Tree<'a>, Refusal> {
        match self.names.is_empty() {
            true => rooms.parse(self.text.as_bytes(), tokens, limit),
            false => {
                rooms.parse_with(self.builtins.lend(), self.text.as_bytes(), tokens, Edition::FIRST, limit)
            }
        }
    }

    /// One call, from its text alone.
    pub fn read<'a>(&'a self, rooms: &'a mut Rooms, limit: u32) -> Result<Tree<'a>, Refusal> {
        match self.names.is_empty() {
            true => rooms.read(self.text.as_bytes(), limit),
            false => rooms.read_with(self.builtins.lend(), self.text.as_bytes(), Edition::FIRST, limit),
        }
    }
}

const SCREEN: &str = r#"import ui.screen: Panel, Button, Label;
const WIDTH = 320;
let refreshed = false;
let items = #{ title: "Departures", rows: 12, footer: nil };
fun format(time, late) {
    if late > 0 and not refreshed { return time + " +" + late; }
    time
}
fun draw(screen, trains) {
    let y = 24;
    let i = 0;
    while i < trains.count {
        let train = trains.at(i);
        const colour = if train.late > 5 { "red" } else { "white" };
        screen.text(8, y, format(train.time, train.late), colour);
        screen.text(WIDTH - 96, y, train.platform, colour);
        y = y + 18 * 1.5;
        i = i + 1;
    }
    screen.label(items.title, -4, WIDTH / 2);
    trains.each(|t| { t.shown = true; });
    refreshed = true;
}
"#;

/// What a station may have built in: 64 names, of which the screen has the first seventeen.
#[rustfmt::skip]
const STATION: [&str; 64] = [
    "ui", "screen", "text", "label", "at", "each", "count", "time", "late", "platform", "shown", "title", "rows", "footer",
    "Panel", "Button", "Label", "print", "advance", "open", "close", "show", "hide", "refresh", "clear", "move_to", "resize",
    "line", "box", "fill", "image", "icon", "font", "size", "left", "right", "top", "bottom", "click", "touch", "key",
    "timer", "wait", "now", "date", "hour", "minute", "second", "delay", "station", "track", "arrival", "departure", "route",
    "stop", "next", "previous", "first", "last", "find", "sort", "filter", "join", "split",
];

/// The screen again and again, in so many tokens.
fn screens(tokens: usize) -> String {
    SCREEN.repeat(tokens / (tokens_of(SCREEN).len() / 3))
}

/// 60 parentheses or blocks in each other, 33 times.
fn parentheses() -> String {
    format!("{}a{};", "(".repeat(60), ")".repeat(60)).repeat(33)
}

fn blocks() -> String {
    format!("{}a;{}", "{".repeat(60), "}".repeat(60)).repeat(33)
}

pub fn all() -> Vec<Input> {
    // no two names of a script stand side by side, so that 4,096 tokens, Eof among them, hold 2,047 of these and no more
    let names = |count: usize| (0..count).map(|i| format!("n{i};")).collect::<String>();
    vec![
        Input { typical: true, ..input("screen", SCREEN.to_string()) },
        Input { typical: true, ..input("large script", screens(4000)) },
        input("nesting, parentheses", parentheses()),
        input("nesting, blocks", blocks()),
        input("different names, 32", names(32)),
        input("different names, 128", names(128)),
        input("different names, 512", names(512)),
        input("different names, 2047", names(2047)),
        input("each name four times", (0..511).map(|i| format!("n{i};").repeat(4)).collect()),
        input("one name", "total;".repeat(2047)),
        input("refusal at the end", screens(4000) + "return;"),
        beside("screen, 64 names", &STATION, SCREEN.to_string()),
        beside("large script, 64 names", &STATION, screens(4000)),
    ]
}

/// Scripts that are refused at their end: by 9 for the `return;`, then by 9 and by 8 with 60 constructs open, and by 11; and
/// two short ones, which show what is paid whatever the script.
pub fn refusals() -> Vec<Input> {
    vec![
        input("screen", SCREEN.to_string() + "return;"),
        input("large script", screens(4000) + "return;"),
        input("nesting, parentheses", parentheses() + &"(".repeat(60) + ";"),
        input("nesting, blocks", blocks() + &"{".repeat(60) + "a b"),
        input("too deep, blocks", blocks() + &"{".repeat(65)),
        input("a statement", "if typed and refreshed { advance(key.code; }".to_string()),
        input("two names", "a b".to_string()),
    ]
}

fn input(name: &'static str, text: String) -> Input {
    beside(name, &[], text)
}

fn beside(name: &'static str, names: &'static [&'static str], text: String) -> Input {
    let (tokens, builtins) = (tokens_of(&text), OwnedBuiltins::new(names));
    let mut input =
        Input { name, text, names, builtins, tokens, typical: false, refused: false, lent: 0, cleared: 0 };
    let mut rooms = input.rooms();
    let lent = rooms.nodes.len() + rooms.links.len() + rooms.symbols.len() + rooms.scratch.len();
    let used = input.read(&mut rooms, 64).map(|tree| {
        NODE_WIDTH * tree.node_rows().len()
            + LINK_WIDTH * tree.link_rows().len()
            + SYMBOL_WIDTH * tree.symbol_rows().len()
    });
    input.refused = used.is_err();
    (input.lent, input.cleared) = (lent, lent - used.unwrap_or(0));
    input
}

/// The tokens of a text, by the list that `read` leaves.
fn tokens_of(text: &str) -> Vec<u32> {
    let mut rooms = Rooms::for_tokens(4096);
    let _ = rooms.read(text.as_bytes(), 64);
    let list = rooms.list;
    let eof = list.chunks(3).position(|token| token[0] == 44).expect("a list with an Eof");
    list[..3 * (eof + 1)].to_vec()
}

//! The text of each refusal that this crate can give, and the names of codes and kinds.
use kaori_syntax::{Builtins, Code, Edition, Kind, OwnedBuiltins, Refusal, Rooms, SCRATCH_WIDTH, Span};

/// The text of a refusal, which its `Display` has too; and `message`, where there is one.
fn said(why: Refusal) -> (u32, String, bool) {
    let (reason, message) = (why.reason(), why.message());
    assert_eq!(why.to_string(), reason.as_str());
    assert!(message.as_str().is_empty() || message.as_str() == reason.as_str());
    assert_eq!(message.as_str().is_empty(), !(Code::Required..=Code::TooDeep).contains(&why.code));
    (why.code as u32, reason.as_str().to_string(), why.byte.is_some())
}

#[test]
fn of_each_code() {
    let mut rooms = Rooms::for_tokens(8);
    let mut read = |text: &[u8], limit| said(rooms.read(text, limit).unwrap_err());
    let told = |code, text: &str, byte| (code, text.to_string(), byte);
    let long = vec![b' '; 65_537];
    assert_eq!(read(b"a;b;c;d;", 64), told(1, "too many tokens: a script has at most 4,095", false));
    assert_eq!(read(&long, 64), told(2, "file too large: a script has at most 65,536 bytes", false));
    assert_eq!(read(b"a;", 0), told(3, "the depth limit is not from 1 to 64", false));
    assert_eq!(read(b"a;\xe9", 64), told(5, "a byte that is not ASCII", true));
    assert_eq!(read(b"f(a", 64), told(8, "expected `,` and found <end of file>", false));
    assert_eq!(read(b"return;", 64), told(9, "expected a <operand> and found: `;`", false));
    assert_eq!(read(b"for", 64), told(10, "for is not supported", false));
    assert_eq!(read(b"((a));", 2), told(11, "nested too deep", false));
    assert_eq!(read(b"a @", 64), told(16, "no token starts here", true));
    assert_eq!(read(b"a = \"b", 64), told(16, "a string that is not closed", true));

    let mut parse = |tokens: &[u32]| said(rooms.parse(b"a;", tokens, 64).unwrap_err());
    let unlike = told(6, "a token whose kind, place or text is wrong", false);
    assert_eq!(parse(&[40, 0, 1, 41, 1, 2, 44, 2, 2]), unlike);
    assert_eq!(parse(&[45, 0, 1, 41, 1, 2, 44, 2, 2]), unlike);
    assert_eq!(
        parse(&[43, 0, 1, 41, 1, 2]),
        told(7, "the end of the file is not the last token alone", false)
    );

    let small = told(4, "too little room for the rows", false);
    assert_eq!(said(Rooms::with_rows(1, 8, 8, 8).read(b"a;", 64).unwrap_err()), small);
    let mut rooms = Rooms::for_tokens(8);
    rooms.scratch.truncate(SCRATCH_WIDTH);
    assert_eq!(said(rooms.read(b"a;", 64).unwrap_err()), small);

    let mut rooms = Rooms::max();
    let wrong = OwnedBuiltins::new(&["if"]);
    let why = rooms.read_with(wrong.lend(), b"a;", Edition::FIRST, 64).unwrap_err();
    assert_eq!(said(why), told(18, "the built-in names are wrong", false));
    let why = rooms.read_with(Builtins::NONE, b"a;", Edition(3), 64).unwrap_err();
    assert_eq!(said(why), told(21, "the edition is neither 1 nor 2", false));
    let why = rooms.guard(b"f(|x| x)", 64).unwrap_err();
    assert_eq!(said(why), told(17, "a guard has no {, if, | or #", false));
}

/// A refusal that is made by hand has the text of its code too, and without the kinds that it would name its numbers.
#[test]
fn by_hand() {
    let made = |code| Refusal {
        code,
        at: 0,
        span: Span { start: 1, end: 2 },
        byte: None,
        expected: None,
        found: None,
        edition: Edition::FIRST,
        limit: 64,
        guard: false,
    };
    for &code in Code::ALL {
        let text = made(code).to_string();
        match code {
            Code::Required => assert_eq!(text, "refusal 8 at 1..2"),
            Code::Operand => assert_eq!(text, "refusal 9 at 1..2"),
            Code::TurnedAway => assert_eq!(text, "the scripts' count, cuts or rooms are wrong"),
            Code::BadChoice => assert_eq!(text, "the choice's length is not the statement count"),
            Code::BadRows => assert_eq!(text, "the rows are not those of a tree"),
            Code::SmallAnswer => assert_eq!(text, "too little room for the answer"),
            Code::PastText => assert_eq!(text, "a place past the end of the text"),
            Code::NoName => assert_eq!(text, "no such row or name"),
            Code::NoToken => assert_eq!(text, "no token starts here"),
            _ => assert!(!text.starts_with("refusal") && text.len() <= 52),
        }
    }
    let error: &dyn std::error::Error = &made(Code::TooDeep);
    assert_eq!(error.to_string(), "nested too deep");
}

#[test]
fn numbers() {
    let codes = [1, 2, 3, 4, 5, 6, 7, 8, 9, 10, 11, 13, 14, 15, 16, 17, 18, 19, 20, 21, 22];
    assert!(Code::ALL.iter().map(|&code| code as u32).eq(codes));
    assert!(Kind::ALL.iter().map(|&kind| u32::from(kind)).eq(0..45));
    for number in (0..100).chain([u32::MAX]) {
        assert_eq!(Code::from_u32(number).is_some(), codes.contains(&number));
        assert_eq!(Code::from_u32(number).map_or(number, u32::from), number);
        assert_eq!(Kind::from_u32(number).is_some(), number < 45);
        assert_eq!(Kind::from_u32(number).map_or(number, u32::from), number);
    }
    let words: Vec<String> = Kind::ALL[20..].iter().map(Kind::to_string).collect();
    assert_eq!(
        words.join(" "),
        "`{` `}` `and` `or` `not` `let` `const` `ref` `fun` `for` `while` `break` `continue` `if` `else` `return` \
         `import` `true` `false` `nil` <number literal> `;` <string literal> <identifier> <end of file>"
    );
    assert_eq!(format!("{:>6}|{:<6}|", Kind::Assign, Kind::Hash), "   `=`|`#`   |");
}

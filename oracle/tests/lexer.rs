//! The token maker of `lexer.rs` where its rules meet, and its refusals.
use oracle::{
    kinds::name,
    lexer::Lexer,
    random::Random,
    scripts::{any_words, script},
    terms::FIRST,
    texts::{Gaps, Text, Texts, printed},
};

/// The tokens of a text before Eof, by kind and lexeme.
fn tokens(text: &str) -> Vec<(String, String)> {
    let tokens = Lexer::new().tokens(text.as_bytes()).unwrap();
    let (eof, tokens) = tokens.split_last().unwrap();
    assert_eq!(*eof, [44, text.len() as u32, text.len() as u32]);
    let named =
        |&[kind, start, end]: &[u32; 3]| (name(kind as u8), text[start as usize..end as usize].to_string());
    tokens.iter().map(named).collect()
}

fn lexemes(text: &str) -> Vec<String> {
    tokens(text).into_iter().map(|token| token.1).collect()
}

fn kinds(text: &str) -> Vec<String> {
    tokens(text).into_iter().map(|token| token.0).collect()
}

#[test]
fn numbers_are_cut_back() {
    assert_eq!(lexemes("1.x"), ["1", ".", "x"]);
    assert_eq!(kinds("1.x"), ["NumberLiteral", "Dot", "Identifier"]);
    assert_eq!(lexemes("1e"), ["1", "e"]);
    assert_eq!(lexemes("1e+"), ["1", "e", "+"]);
    assert_eq!(lexemes("1."), ["1", "."]);
    assert_eq!(lexemes("1.e5"), ["1", ".", "e5"]);
    assert_eq!(lexemes("1.5e"), ["1.5", "e"]);
    assert_eq!(lexemes("1.2.3"), ["1.2", ".", "3"]);
    assert_eq!(lexemes("12ab"), ["12", "ab"]);
    assert_eq!(lexemes("1.5e-7x"), ["1.5e-7", "x"]);
    assert_eq!(lexemes("-1"), ["-", "1"]);
}

#[test]
fn the_longest_match_and_keywords() {
    assert_eq!(
        kinds("if iff If _if i f"),
        ["If", "Identifier", "Identifier", "Identifier", "Identifier", "Identifier"]
    );
    assert_eq!(lexemes("==="), ["==", "="]);
    assert_eq!(lexemes("!=="), ["!=", "="]);
    assert_eq!(kinds(">=>"), ["GreaterEqual", "Greater"]);
    assert_eq!(lexemes("a\tb\x0Cc\rd\ne f"), ["a", "b", "c", "d", "e", "f"]);
    assert!(kinds("").is_empty());
}

#[test]
fn strings() {
    assert_eq!(lexemes(r#""a\"b"c"#), [r#""a\"b""#, "c"]);
    assert_eq!(lexemes("\"\n\"\"\\\\\""), ["\"\n\"", "\"\\\\\""]);
    let lexer = Lexer::new();
    for (text, at) in [("\"", 0), ("a \"b", 2), ("\"\\\"", 0), ("\"\\\n\"", 0), ("\"\" \"\\\n\"", 3)] {
        assert_eq!(lexer.tokens(text.as_bytes()), Err(at), "{text}");
    }
    for (text, at) in [("!", 0), ("a $", 2), ("\x0B", 0), ("a\0", 1), ("\x7F", 0), ("a=!b", 2)] {
        assert_eq!(lexer.tokens(text.as_bytes()), Err(at), "{text}");
    }
}

fn answer(text: impl Into<Vec<u8>>, room: usize) -> Vec<u32> {
    Text { room, bytes: text.into() }.answer(&Lexer::new())
}

#[test]
fn answers_and_rooms() {
    assert_eq!(answer("a;", 11), [0, 3, 0, 0, 0, 255, 43, 0, 1, 41, 1, 2, 44, 2, 2, 0, 0]);
    assert_eq!(answer("a;", 8), [1, 0, 0, 0, 0, 255, 0, 0, 0, 0, 0, 0, 0, 0]);
    assert_eq!(answer("", 3), [0, 1, 0, 0, 0, 255, 44, 0, 0]);
    assert_eq!(answer("", 2), [1, 0, 0, 0, 0, 255, 0, 0]);
    assert_eq!(answer("a $ b", 4), [16, 0, 0, 2, 3, 255, 0, 0, 0, 0]);
    assert_eq!(answer("$", 0), [16, 0, 0, 0, 1, 255]);
    assert_eq!(answer(b"$ \x80 \xFF".to_vec(), 2), [5, 0, 0, 2, 3, 255, 1, 2]);
    assert_eq!(answer(vec![200; 65_537], 2), [2, 0, 0, 0, 0, 255, 1, 2]);
    assert_eq!(answer(vec![b'a'; 65_536], 6), [0, 2, 0, 0, 0, 255, 43, 0, 65_536, 44, 65_536, 65_536]);
    assert_eq!(answer(";".repeat(4_095), 12_400)[..6], [0, 4_096, 0, 0, 0, 255]);
    assert_eq!(answer(";".repeat(4_096), 12_400)[..6], [1, 0, 0, 0, 0, 255]);
    assert_eq!(answer(";".repeat(4_096) + "$", 12_400)[..6], [16, 0, 0, 4_096, 4_097, 255]);
}

/// Words that are printed apart are made again as they were.
#[test]
fn printed_words() {
    let lexer = Lexer::new();
    for index in 0..4_000 {
        let random = &mut Random::of(7, index);
        let size = random.between(1, 60);
        let words = if index % 2 == 0 { script(FIRST, random, size) } else { any_words(random, size) };
        let gaps = random.pick(&[Gaps::Needed, Gaps::Blanks]);
        let text = printed(&words, gaps, random);
        let made = lexer.tokens(&text).unwrap();
        assert_eq!(made.len(), words.len() + 1);
        for (word, [kind, start, end]) in words.iter().zip(made) {
            assert_eq!(
                (word.kind as u32, word.lexeme.as_bytes()),
                (kind, &text[start as usize..end as usize])
            );
        }
    }
}

#[test]
fn a_run_has_all_sizes() {
    let (texts, lexer) = (Texts::new(1), Lexer::new());
    let (mut sizes, mut single, mut codes) = ([false; 3], [false; 256], std::collections::BTreeSet::new());
    for index in 0..20_000 {
        let text = texts.get(index);
        if let Some(size) = text.bytes.len().checked_sub(65_535) {
            sizes[size] = true;
        }
        if let [byte] = text.bytes[..] {
            single[byte as usize] = true;
        }
        codes.insert(text.answer(&lexer)[0]);
    }
    assert!(sizes.iter().chain(&single).all(|seen| *seen));
    assert_eq!(codes.into_iter().collect::<Vec<_>>(), [0, 1, 2, 5, 16]);
}

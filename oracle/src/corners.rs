//! Cases written down: document 01's samples, the decided points, every production and span rule, the door.
use crate::{
    case::{Case, MAX_TEXT, MAX_TOKENS, Token},
    kinds::{EOF, IDENTIFIER, NUMBER, OUTSIDE, STRING, spelling},
    list::script,
};

/// Document 01's samples, its example and the depths that it names.
#[rustfmt::skip]
pub const SAMPLES: &[&str] = &[
    "a;", "", "not a and b;", "f(a,);", "a.b;", "import a:;", "{ let x = 1 }", "{ if a {} ; }",
    "if a {} + 1;", "\"a\"; a;", "return;", "(f)(x);", "x = y = z;", "f(a", "f(a,", "((a));", "+a;", "{}",
    "if a {}", "f(x) + 1;", "|x| x + 1;", "while a {}", "not a;", "#{};", "|x| {};", "if a {} else if b {}",
    "-f(x);",
];

/// Scripts that only just pass or only just fail a rule.
#[rustfmt::skip]
pub const RULES: &[&str] = &[
    // names and their bindings
    "let x = 1;", "const x = 1;", "ref x = y;", "let x;", "let = 1;", "let x = ;", "const 1 = 2;", "ref x y;",
    "let x = y = z;", "let let = 1;", "let x == 1;", "const c = \"s\";", "ref r = f(a).b;", "let x = {};",
    // imports
    "import", "import;", "import a", "import a;", "import a.", "import a.;", "import a.b.c;",
    "import a.b.c: d;", "import a:", "import a: b", "import a: b,", "import a: b, c;", "import a: b,;",
    "import a: b, c,;", "import a:, b;", "import a: b c;", "import 1;", "import a.1;", "import a b;",
    "{ import a }", "{ import a: b }", "{ import a: }", "{ import a; }", "{ import a.b: c, d; }",
    "import a.b", "import a = b;", "import a;import b;", "import \"a\";", "import a: \"b\";", "import a }",
    "import a . b : c , ;", "import if;",
    // blocks, tails and semicolons
    "{};", "{}{}", "{a}", "{a;}", "{a;b}", "{a;b;}", "{a b}", "{", "{a", "{a;", "{{}}", "{{};}", "{{}a}", "}",
    "{}}", "a}", "a;}", "break }", ";", "a;;", "{;}", "{a;;}", "{ if a {} }", "{ if a {}; }", "{ if a {} b }",
    "{ while a {} }", "{ while a {}; }", "{ fun f() {} }", "{ fun f() {}; }", "{ return a }", "{ break }",
    "{ continue }", "{ break; }", "{ a = b }", "{ a = b; }", "{ const x = 1 }", "{ ref x = y }", "{ #{} }",
    "{ if a {} + 1 }", "{ {} {} }", "{ {} ; {} }", "{} {} ;", "a", "a b;", "{} a;", "{}.a;", "{}(a);",
    "{} = a;",
    // if, while, fun
    "if a {} else {}", "if a {} else if b {} else {}", "if a {} else if b {} else if c {} else {}",
    "if a {b} else {c}", "if a {b;} else {c;};", "if", "if {} {}", "if a", "if a b", "if a {} else",
    "if a {} else b", "if a {} else while b {}", "if a {} else if", "if a {} else if {} {}",
    "if a {} if b {}", "else {}", "if if a {} {} {}", "if not a {} {}", "if a {} {} {}", "if |x| x {} {}",
    "if a = b {}", "if f(a) {}", "if (a) {}", "if #{} {}", "while a { b; }", "while", "while a", "while a b",
    "while {} {}", "while a {};", "while a { break; continue }", "while a == b {} c;", "while if a {} {} {}",
    "fun f() {}", "fun f(a) {}", "fun f(a,) {}", "fun f(a, b) { b; }", "fun f(a) { b; }", "fun f(a) { a }",
    "fun f(,) {}", "fun f(a b) {}", "fun f(a", "fun f(a,", "fun f(", "fun f", "fun", "fun f() x",
    "fun f(1) {}", "fun f() {", "fun () {}", "fun f() {};", "fun f() {} + 1;", "fun f(a, a) {}",
    "fun f() { fun g(b) { |c| c } }", "fun f {}", "fun f(a, b) { { c; } d; }", "fun f(x) { g(x, y); h(z) }",
    // return, break, continue, for
    "return a;", "return a", "return a + b;", "return f(x);", "return }", "return return a;", "break;",
    "continue;", "break", "continue", "break a;", "for", "for a;", "{ for", "a; for", "(for", "a = for;",
    "if a { for }", "let for = 1;",
    // assignment
    "a = b;", "a = b", "a.b = c;", "f(a) = b;", "1 = 2;", "a + b = c + d;", "a = ;", "= a;", "(a = b);",
    "a == b;", "a = |x| x;", "-a = b;", "a = if b {} else {};", "{ a = }", "f() = g();",
    // levels and prefixes
    "a or b;", "a and b;", "a == b;", "a != b;", "a > b;", "a >= b;", "a < b;", "a <= b;", "a + b;", "a - b;",
    "a * b;", "a / b;", "a % b;", "a or b or c;", "a - b - c;", "a * b + c;", "a + b * c;", "a + b == c;",
    "a == b and c;", "a and b or c and d;", "a or b and c;", "a < b == c > d;", "a - -b;", "a + +b;",
    "a * -b * c;", "-a;", "^a;", "+a;", "--a;", "-^+a;", "-a.b;", "-a + b;", "+a + b;", "not not a;",
    "not a;", "- not a + b;", "a and not b and c;", "not a or b;", "not a == b;", "not -a;", "(not a) and b;",
    "a or;", "a +;", "a + * b;", "* a;", "a not b;", "not;", "-;", "^", "a ^ b;", "a * not b + c;",
    "a == b == c;", "(a + b) * c;", "a * (b + c);", "((a) + (b));", "+(a);", "+ + a + b;", "a % b / c * d;",
    "a < b < c;", "not a = b;",
    // operands and literals
    "1;", "1.5;", "1e9;", "1.5E-3;", "0;", "007;", "1e999;", "\"\";", "\"a b\";", "\"\\\"\";", "\"\\\\\";",
    "\"a\nb\";", "\"a\"; \"a\"; a; b; \"b\";", "true;", "false;", "nil;", "(a);", "(((a)));", "()", "(a",
    "(a;", "(a b);", "(a,);", "(a)(b);", "(a).b;", "\"a\".b;", "1(a);", "a = \"a\";", "\"if\"; \"\"; \"\";",
    "_;", "(a) b;",
    // chains
    "f();", "f(a);", "f(a, b);", "f(,);", "f(a,,);", "f(a b);", "f(", "f(a;", "f()();", "f().a;", "a.b.c;",
    "a.b();", "a.b(c).d(e, f).g;", "f(g(h(a)));", "a.;", "a.1;", "a..b;", "a.if;", "a.\"b\";", "f(a)(b)(c);",
    "f(a = b);", "f({}, #{}, |x| x);", "f(a", "f(if a {} else {});", "f(a, b,);", "a.b + c.d;",
    "f(a) - f(b);", "f(not a, b);", "f() {}", "a.b.a.b;", "f(x) and g(y);", "x == f(y);", "a.", "f(a)",
    "f(a).",
    // lambdas
    "|| a;", "|x| x;", "|x,| x;", "|x, y| x + y;", "|x| { x };", "|x| { x } + 1;", "|x| { x }(y);",
    "|x| |y| z;", "|,| x;", "|x y| x;", "|x", "|x,", "|", "||", "|x|", "|1| x;", "|x| x, y;", "f(|x| x, y);",
    "|x| x = y;", "a + |x| x + 1;", "|x| not x and y;", "|x| if x {} else {} + 1;", "(|x| x)(y);",
    "|x| #{x};", "|a| { b; |c| d };", "|x| x or y and z;", "|x| {} == |y| {};", "-|x| x;",
    "|a, b| { f(a); g(b) };", "|x| return x;",
    // maps
    "#{a};", "#{a,};", "#{a: b};", "#{a: b,};", "#{a, b: c, d};", "#{a: b, c: d};", "#", "#{", "#{a", "#{a:",
    "#{a: b", "#{a,", "#{,};", "#{a b};", "#{a:};", "#{:a};", "# a;", "#{a: b: c};", "#{#{}: #{}};",
    "#{\"k\": 1};", "#{1: 2, 3};", "#{}(a);", "#{}.a;", "#{} + 1;", "#{|x| x: y};", "#{a: |x| x, b};",
    "#{a: b, c: };", "#{a = b};", "#{{}};", "f(#{a: g(b)}, c);",
    // symbols
    "a; b; a;", "a.a;", "let a = a;", "fun a(a) { a }", "import a.a: a;", "|a| a;", "aa; a; aaa;", "A; a;",
    "\"x\"; \"y\"; y; x;", "f(f, f);", "#{a: a};", "\"\\n\"; n;", "android; iff; not1; nil_;",
];

/// Scripts that tell the editions apart, or would if a rule were wrong.
#[rustfmt::skip]
pub const EDITIONS: &[&str] = &[
    // `not` binds like a sign, and its span runs to its operand's end
    "not a and b;", "not (a);", "not (a and b) or c;", "not a.b;", "not a(b) + c;", "not not a;", "- not a * b;", "not -a;", "not ^ + a;", "not a == b;",
    "a and not b or c;", "x = not a;", "not a = not b;", "if not typed and refreshed { advance(); }", "while not a or b {}", "not {};", "not {} + 1;",
    "not if a {} else {} * b;", "not |x| x and y;", "not |x| not x and y;", "not #{};", "not \"s\";", "not 1 * 2;", "not true or not nil;", "not ((a));", "not ((a) + b);",
    "not not (a) and b;", "a * not b + c;", "a == not b == c;", "-not-not a;", "^not+a(b).c - d;", "f(not a, not b or c);", "#{not a: not b and c};", "return not a or b;",
    "let x = not a and b;", "|x| not x or y;", "{ not a }", "{ not a and b; }", "not", "not;", "not not;", "not )", "not = a;", "not not", "not let", "a not b;", "not for;",
    // `return` before `;` or `}` has no child and opens nothing; before anything else it has one
    "return;", "{return}", "{return;}", "{ return } a;", "{ a; return }", "{ a; return; }", "{ return; return }", "fun f() { return; }", "fun f() { return }", "return a;",
    "return (a);", "return -(a);", "return {};", "return #{};", "return |x| {};", "return (a)(b);", "return not a;", "if a { return } else { return; }", "while a { return }",
    "let f = |x| { return };", "let f = |x| { return; };", "f({ return });", "{ { return } }", "{ return {} }", "{ return { return } }", "{ return { return; }; }", "return", "return )",
    "return }", "return; }", "return = a;", "return return;", "return return", "return import a;", "return for;", "|x| return;", "{ return a }", "{ return", "{ return;", "return,", "{return)",
    "return ; ;", "fun f() { return } return; return a;", "return let a = b;",
    // a chain after the `)` of an expression, and after nothing else
    "(a)(b);", "(a).b;", "(a).b(c)(d);", "((a))(b);", "((a)(b))(c);", "((a).b)(c).d;", "(f)(x) + 1;", "1 + (f)(x);", "- (a)(b);", "not (a)(b);", "not (a).b and c;", "(a and b)(c);",
    "(a + b).c;", "(1)(a);", "(\"s\").b;", "(#{}).b;", "(|x| x)(y);", "({})(a);", "(if a {} else {})(b);", "(-a)(b);", "(not a)(b);", "(a)();", "(a)(b, c,);", "(a)(b)(c);",
    "(a).b.c;", "(a)((b)(c));", "(a) = b;", "(a)(b) = (c).d;", "((a)) (b) . c;", "(a)(b).c * (d)(e);", "if (a)(b) {}", "while (a).b {}", "f((a)(b));", "#{(a)(b): (c).d};",
    "|x| (x)(y);", "{ (a)(b) }", "{ (a).b; }", "let f = (a)(b);", "({ return })(a);",
    "{}(a);", "{ a }(b);", "1(a);", "\"s\".b;", "#{}.b;", "#{}(a);", "|x| {}(a);", "if a {} (b);", "x = {}(a);", "x = if a {} else {}(b);", "true(a);", "nil.a;", "-a(b);",
    "f(a)(b);", "fun f() {}(a);", "(a", "(a)(", "(a).;", "(a).", "(a)(b", "(a)(b,", "(a)(b;", "(a).1;", "(a)(,);", "(a))(b);", "((a)(b);", "(a) b;", "()(a);", "(a)()", "(a)(b c);", "(a) {} ;",
    "(a)#{};", "(a) not b;", "(a)(b).c(", "(a)..b;",
];

pub fn editions() -> Vec<Case> {
    EDITIONS.iter().map(|text| script(text)).collect()
}

/// Guards (request L9), and what only just is none.
#[rustfmt::skip]
pub const GUARDS: &[&str] = &[
    // request L9's own, and the least; what is no guard, though it is a script, or the other way round
    "typed == 0 and refreshed", "a", "", "a;", "for", ";", "a b", "a; b;", "a = b", "let a = b", "return a", "return", "import a", "break", "while a", "fun f", "}", "a }", ")", "a )",
    "a,", "a:", "a : b", "else", "a else", "a for", "for a", "not for", "(for", "f(for)", "a not b", "a; for",
    // operators, and their operands where they are missing
    "a or b", "a and b", "a == b", "a != b", "a > b", "a >= b", "a < b", "a <= b", "a + b", "a - b", "a * b", "a / b", "a % b", "a or b and c == d < e + f * g", "a * b + c < d == e and f or g",
    "a - b - c", "a or", "or a", "a and and b", "a +", "a + * b", "* a", "a == ;", "a + b c", "a + b;",
    // signs and `not`
    "-a", "^a", "+a", "- ^ + a", "+ + a + b", "not a", "not not a", "not a and b", "a and not b or c", "- not a + b", "not (a)", "not (a and b) or c", "-(a)", "-", "not", "+", "- )", "not ;", "a ^ b",
    // parentheses
    "(a)", "((a))", "(a + b) * c", "a * (b + c)", "a + (b)", "()", "(", "(a", "(a;", "(a b)", "(a,)", "((a)", "(a))", "(a) b", "(a);",
    // chains, in edition 2 after a `)` too
    "f()", "f(a)", "f(a,)", "f(a, b)", "f(a, b,)", "f()()", "f().a", "a.b", "a.b.c", "a.b(c).d(e, f).g", "f(g(h(a)))", "f(not a, b)", "f(x) + 1", "-f(x)", "f(", "f(a", "f(a,", "f(,)", "f(a,,)", "f(a b)", "f(a;",
    "f(a) b", "f(a);", "a.", "a.1", "a..b", "a.if", "a.\"b\"", "a.b;", "f(a = b)", "(a)(b)", "(a).b", "(a)(b)(c).d", "((a)(b))(c)", "not (a)(b)", "(a + b).c", "(a)(", "(a).", "(a)(b", "1(a)", "\"s\".b", "nil.a",
    // literals, names and strings
    "1", "1.5e-3", "\"\"", "\"a b\"", "true", "false", "nil", "true and false or nil", "\"a\" == a", "a == \"a\"", "a + b + a", "a.a(a)", "\"{\"", "\"if\" == \"|\" + \"#\"", "iffy", "1 2", "\"a\" \"b\"",
    // tokens outside the profile
    "{", "if", "|", "#", "{}", "#{}", "|x| x", "|| a", "if a {}", "if a {} else {}", "{a}", "{ a; }", "f({})", "a + #{}", "a and {", "a |", "a | b", "a #", "if if", "# { | if", "a; {", ") {", "a b {", "+ * {", "f(a {", "(a |",
    "a = {}", "for {", "{ for", "{ for }", "return {}", "} {",
];

pub fn guards() -> Vec<Case> {
    GUARDS.iter().map(|text| script(text)).collect()
}

/// Each kind outside the profile at each place of a guard, of one that is refused in reading, and of one that the door refuses:
/// for a kind over 44, for an Eof too early, and for a byte over 127.
pub fn outside() -> Vec<Case> {
    let mut cases = Vec::new();
    for text in ["a", "", "f(a, b)", "a + * b", "(a b", "a; b"] {
        let texts = (0..=text.len()).flat_map(|place| {
            let (before, after) = text.split_at(place);
            OUTSIDE.map(|kind| format!("{before} {} {after}", spelling(kind).expect("a fixed spelling")))
        });
        cases.extend(texts.map(|text| script(&text)));
    }
    for text in ["{ a b", "a b |", "a if b #"] {
        let case = script(text);
        for (place, token) in case.tokens.iter().enumerate() {
            let with = |kind: u8| {
                let mut case = case.clone();
                case.tokens[place].kind = kind;
                case
            };
            cases.extend([with(EOF + 1), with(EOF)]);
            let mut case = case.clone();
            case.text.insert(token.start as usize, 200);
            cases.push(case);
        }
    }
    cases
}

/// What stands where one opening is left.
#[rustfmt::skip]
const ONE_LEFT: &[&str] = &[
    "f();", "f(", "(", ")", "{ ) }", "{ return", "fun f() x", "{ fun f() x }", "for", "{ for", "a", "-a;",
    "+a;", "f(a);", "not a;", "#{}", "#{a}", "|x| x", "|x| {}", "{}", "{{}}", "if a {}", "while a {}",
    "let x = 1;", "import a;", "a + b * c;", "a = b;",
];

/// A way to stand inside: what comes before, how often, and what comes after.
pub struct Nesting {
    pub open: &'static str,
    pub core: &'static str,
    pub close: &'static str,
    pub end: &'static str,
}

const fn nesting(open: &'static str, core: &'static str, close: &'static str, end: &'static str) -> Nesting {
    Nesting { open, core, close, end }
}

pub const NESTINGS: &[Nesting] = &[
    nesting("(", "a", ")", ";"),
    nesting("-", "a", "", ";"),
    nesting("+", "a", "", ";"),
    nesting("^", "a", "", ";"),
    nesting("not ", "a", "", ";"),
    nesting("|x| ", "a", "", ";"),
    nesting("|x| {", "a", "}", ";"),
    nesting("f(", "a", ")", ";"),
    nesting("#{", "a", "}", ";"),
    nesting("#{a: ", "b", "}", ";"),
    nesting("{", "", "}", ""),
    nesting("{", "a", "}", ""),
    nesting("if ", "a", " {}", ""),
    nesting("if a {", "", "}", ""),
    nesting("if a {} else ", "{}", "", ""),
    nesting("if a {} else {", "", "}", ""),
    nesting("while a {", "b;", "}", ""),
    nesting("while {", "a", "} {}", ""),
    nesting("fun f() {", "", "}", ""),
    nesting("a = {", "b", "}", ";"),
    nesting("return {", "return a", "}", ";"),
    nesting("(-", "a", ")", ";"),
    nesting("a * (", "b", ")", ";"),
];

impl Nesting {
    pub fn script(&self, times: usize) -> String {
        [self.open.repeat(times), self.core.into(), self.close.repeat(times), self.end.into()].concat()
    }
}

/// Scripts whose depth lies around 64.
pub fn nested() -> Vec<Case> {
    let mut cases = Vec::new();
    for form in NESTINGS {
        for times in (19..=22).chain(30..=33).chain(61..=66) {
            cases.push(script(&form.script(times)));
        }
    }
    for core in ONE_LEFT {
        cases.push(script(&format!("{}{core}{}", "{".repeat(63), "}".repeat(63))));
    }
    cases
}

/// Guards whose depth lies around 64, whole and not closed, and the largest ones.
pub fn nested_guards() -> Vec<Case> {
    let is_outside = |token: &Token| OUTSIDE.contains(&token.kind);
    let mut cases = Vec::new();
    for form in NESTINGS.iter().filter(|form| !script(&form.script(1)).tokens.iter().any(is_outside)) {
        for times in (19..=22).chain(30..=33).chain(61..=66) {
            let whole = Nesting { end: "", ..*form }.script(times);
            let open = form.open.repeat(times) + form.core;
            cases.extend([script(&whole), script(&open), script(&form.open.repeat(times))]);
        }
    }
    cases.extend([254, 255].map(|times| script(&format!("a{}", "+a".repeat(times)))));
    cases
}

/// Scripts that end where one opening of 64 is left.
pub fn at_limit() -> Vec<Case> {
    ONE_LEFT.iter().map(|core| script(&format!("{}{core}", "{".repeat(63)))).collect()
}

pub fn scripts() -> Vec<Case> {
    SAMPLES.iter().chain(RULES).map(|text| script(text)).collect()
}

/// Cases that one check of the door settles, and such as only just pass it.
pub fn at_door() -> Vec<Case> {
    let mut cases = vec![Case { text: b"a".into(), tokens: vec![] }, Case::default()];
    let mut add = |text: &[u8], tokens: &[(u8, u32, u32)]| {
        let token = |&(kind, start, end): &(u8, u32, u32)| Token { kind, start, end };
        cases.push(Case { text: text.into(), tokens: tokens.iter().map(token).collect() });
    };
    // 5, also before 6 and 7
    add(b"\x80", &[(EOF, 1, 1)]);
    add(b"a\xFF;", &[(IDENTIFIER, 0, 1), (41, 2, 3), (EOF, 3, 3)]);
    add(b"a;\x7F", &[(IDENTIFIER, 0, 1), (41, 1, 2), (EOF, 3, 3)]);
    add(b"ab\x80\x81", &[(99, 7, 3)]);
    // 6: kinds and spans
    add(b"a;", &[(45, 0, 1), (41, 1, 2), (EOF, 2, 2)]);
    add(b"a;", &[(IDENTIFIER, 0, 1), (255, 1, 2), (EOF, 2, 2)]);
    add(b"a;", &[(IDENTIFIER, 1, 0), (41, 1, 2), (EOF, 2, 2)]);
    add(b"a;", &[(IDENTIFIER, 0, 3), (41, 1, 2), (EOF, 2, 2)]);
    add(b"a;", &[(IDENTIFIER, 0, 1), (41, 1, 2), (EOF, 3, 3)]);
    add(b"a;", &[(IDENTIFIER, 0, 1), (41, 1, 2), (EOF, 2, 3)]);
    add(b"a;", &[(IDENTIFIER, 0, 1), (41, 1, 2), (EOF, 2, 1)]);
    add(b"a;", &[(IDENTIFIER, 0, 1), (41, 1, 2), (EOF, 1, 2)]);
    add(b"aa;", &[(IDENTIFIER, 0, 2), (IDENTIFIER, 1, 2), (41, 2, 3), (EOF, 3, 3)]);
    add(b"a;", &[(IDENTIFIER, u32::MAX, u32::MAX), (EOF, 2, 2)]);
    add(b"a;", &[(IDENTIFIER, 0, u32::MAX), (EOF, 2, 2)]);
    add(b"a;", &[(EOF, 0, 0), (99, 5, 4)]);
    add(b"a b;", &[(IDENTIFIER, 2, 3), (IDENTIFIER, 0, 1), (41, 3, 4), (EOF, 4, 4)]);
    // 6: lexemes
    for (kind, lexeme) in MISFITS {
        add(
            lexeme.as_bytes(),
            &[(*kind, 0, lexeme.len() as u32), (EOF, lexeme.len() as u32, lexeme.len() as u32)],
        );
    }
    // 7
    add(b"a;", &[(EOF, 0, 0), (EOF, 2, 2)]);
    add(b"a;", &[(IDENTIFIER, 0, 1), (EOF, 1, 1), (41, 1, 2), (EOF, 2, 2)]);
    add(b"a;", &[(IDENTIFIER, 0, 1), (41, 1, 2)]);
    add(b"a", &[(IDENTIFIER, 0, 1)]);
    add(b"a;", &[(EOF, 0, 0), (IDENTIFIER, 0, 1)]);
    // passed: gaps and Eof's lexeme are not examined
    add(b"?a?;?", &[(IDENTIFIER, 1, 2), (41, 3, 4), (EOF, 4, 5)]);
    add(b"a;rest", &[(IDENTIFIER, 0, 1), (41, 1, 2), (EOF, 3, 5)]);
    add(b"a;rest", &[(IDENTIFIER, 0, 1), (41, 1, 2), (EOF, 2, 2)]);
    add(b"a+b;", &[(IDENTIFIER, 0, 1), (41, 3, 4), (EOF, 4, 4)]);
    add(b"12;", &[(NUMBER, 0, 1), (1, 1, 1), (EOF, 3, 3)]);
    add(b"import a", &[(36, 0, 6), (IDENTIFIER, 7, 8), (EOF, 8, 8)]);
    add(b"{ab}", &[(20, 0, 1), (36, 1, 1), (21, 3, 4), (EOF, 4, 4)]);
    add(b"abc;", &[(IDENTIFIER, 0, 1), (15, 1, 1), (41, 3, 4), (EOF, 4, 4)]);
    cases
}

/// Each kind over a lexeme of one byte, and over an empty one.
pub fn each_kind() -> Vec<Case> {
    let eof = Token { kind: EOF, start: 2, end: 2 };
    let case = |token: Token| Case { text: b"+a".into(), tokens: vec![token, eof] };
    let spans = |kind: u8| [(0, 1), (1, 1), (1, 2)].map(|(start, end)| case(Token { kind, start, end }));
    (0..=EOF + 1).flat_map(spans).collect()
}

/// Kinds with lexemes that do not fit them.
#[rustfmt::skip]
const MISFITS: &[(u8, &str)] = &[
    (NUMBER, ""), (NUMBER, "."), (NUMBER, "1."), (NUMBER, ".5"), (NUMBER, "1e"), (NUMBER, "1e+"),
    (NUMBER, "1.5e-"), (NUMBER, "1.e5"), (NUMBER, "1_0"), (NUMBER, "-1"), (NUMBER, "1 "), (NUMBER, "inf"),
    (NUMBER, "1e5.5"), (STRING, ""), (STRING, "\""), (STRING, "\"a"), (STRING, "a\""), (STRING, "\"\\\""),
    (STRING, "\"a\"b\""), (STRING, "\"\\\n\""), (STRING, "'a'"), (STRING, "\"a\" "), (STRING, "\"\\\\\\\""),
    (IDENTIFIER, ""), (IDENTIFIER, "1a"), (IDENTIFIER, "a-b"), (IDENTIFIER, "if"), (IDENTIFIER, "nil"),
    (IDENTIFIER, "and"), (IDENTIFIER, "a "), (IDENTIFIER, "a.b"), (IDENTIFIER, "@"), (IDENTIFIER, "\0"),
    (1, "-"), (0, "=="), (8, "="), (22, "AND"), (22, "an"), (22, "andy"), (41, ":"), (41, ""), (33, "i"),
];

/// Inputs whose records are broken, and such as only just pass.
pub fn broken() -> Vec<Vec<u8>> {
    let whole = script("a;").encode();
    let mut inputs: Vec<_> = (0..whole.len()).map(|length| whole[..length].to_vec()).collect();
    for place in 0..whole.len() {
        let mut input = whole.clone();
        input[place] ^= 1;
        inputs.push(input);
    }
    for more in [&b"K"[..], b"KT", b"KS\0\0\0\0", b"\n", b"\0"] {
        inputs.push([&whole, more].concat());
    }
    inputs
}

/// Inputs as long as they may be, and longer.
pub fn at_sizes() -> Vec<Vec<u8>> {
    let statements = "a;".repeat(MAX_TOKENS / 2);
    let blanks = " ".repeat(MAX_TEXT + 1);
    let texts = [&statements[..MAX_TOKENS - 1], &statements, &blanks[..MAX_TEXT], &blanks];
    texts.map(|text| script(text).encode()).into()
}

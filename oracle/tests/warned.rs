//! The judge of warnings: scripts that are written down, with what is warned of.
use oracle::{
    grouping::Grouping,
    list::script,
    terms::{FIRST, SECOND},
    warned::warnings,
};

fn told(edition: u32, text: &str) -> String {
    let case = script(text);
    let all = warnings(&case, &Grouping::of(edition, &case));
    all.iter().map(|w| format!("{} {}:{}", w.rule, w.line, w.column)).collect::<Vec<_>>().join(", ")
}

#[track_caller]
fn both(text: &str, expected: &str) {
    assert_eq!(told(FIRST, text), expected, "{text}");
    assert_eq!(told(SECOND, text), expected, "{text}");
}

#[test]
fn a_not_that_reaches_on() {
    for text in
        ["not a and b;", "not a == b or c;", "not (a) and b;", "not -a and b;", "not if a { b } and c;"]
    {
        assert_eq!(told(FIRST, text), "reaching-not 1:1", "{text}");
        assert_eq!(told(SECOND, text), "", "{text}");
    }
    assert_eq!(told(FIRST, "not not a and b;"), "reaching-not 1:1, reaching-not 1:5");
    assert_eq!(told(FIRST, "not if not a and b { c };"), "reaching-not 1:8");
    for text in ["not |x| a and b;", "not -|x| a or b;", "not |x| |y| a and b;"] {
        both(text, "reaching-not 1:1");
    }
    for text in [
        "not (a and b);",
        "(not a) and b;",
        "a and not b;",
        "not f(a and b);",
        "not { a and b };",
        "not #{ a and b };",
        "not |x| { a and b };",
        "not |x| (a and b);",
        "not if a and b { c };",
        "not if a { b } else if c and d { e };",
        "not if |x| a and b { c };",
        "not a = b and c;",
        "not a; b and c;",
    ] {
        both(text, "");
    }
}

#[test]
fn a_statement_that_is_cut_off() {
    for (sign, end) in [("+", ""), ("-", ""), ("^", ""), ("(", ")")] {
        both(&format!("{{ a }} {sign} b {end};"), "cut-off 1:7");
        both(&format!("{{ if a {{ b }} {sign} c {end} }}"), "cut-off 1:14");
        both(&format!("{{ a }}; {sign} b {end};"), "");
        both(&format!("if a {{ b }} not {sign} b {end};"), "");
    }
    both("fun f() { a } -b;", "cut-off 1:15");
    both("while a { b } -c;", "cut-off 1:15");
    both("{ import a } -b;", "cut-off 1:14");
    for text in ["x = { a } + b;", "x = { import a } + b;", "({ a }) + b;", "if { import a } + b { c }"] {
        both(text, "");
    }
}

#[test]
fn what_goes_on_over_a_line() {
    for end in ["\n", "\r", "\r\n", " \n\n"] {
        let line = if end.contains("\n\n") { 3 } else { 2 };
        for sign in ["+", "-", "("] {
            let text = format!("a{end}{sign}b{};", if sign == "(" { ")" } else { "" });
            both(&text, &format!("going-on {line}:1"));
        }
        for text in [
            "a*E b;",
            "aE*b;",
            "a +E b;",
            "a(Eb);",
            "aE== b;",
            "a;E-b;",
            "a *E-b;",
            "aE.b;",
            "(E(a));",
            "(aE+b);",
            "f(aE-b);",
            "#{ a: bE- c };",
            "f(a, #{ b: cE(d) });",
        ] {
            both(&text.replace('E', end), "");
        }
    }
    both("f(|x| { a\n-b });", "going-on 2:1");
    both("if a\n- b { c }", "going-on 2:1");
    assert_eq!(told(SECOND, "(a)\n(b);"), "going-on 2:1");
    both("\"a\nb\" + c;", "long-string 1:1");
}

#[test]
fn a_string_over_a_line() {
    for end in ["\n", "\r", "\r\n", "\\\r", "a\nb\nc"] {
        both(&format!("f(\"{end}\");"), "long-string 1:3");
    }
    both("f(\"\\n\\r\");", "");
}

//! Document 01's example, samples and depths, and the points it leaves open, as the oracle answers them; and each row's
//! parent.
use oracle::{answer, answer_with, list::script};

fn first_line(text: &str, limit: u32) -> String {
    let output = String::from_utf8(answer_with(&script(text).encode(), limit)).unwrap();
    output.lines().next().unwrap().to_string()
}

fn node_rows(text: &str) -> Vec<String> {
    let output = String::from_utf8(answer(&script(text).encode())).unwrap();
    let rows = output.lines().skip(1).filter(|line| line.starts_with(|c: char| c.is_ascii_digit()));
    rows.map(|row| row.split_once(' ').unwrap().1.to_string()).collect()
}

#[test]
fn the_example() {
    let input = [
        &b"\x4B\x53\x02\x00\x00\x00\x61\x3B"[..],
        b"\x4B\x54\x2B\x00\x00\x00\x00\x01\x00\x00\x00",
        b"\x4B\x54\x29\x01\x00\x00\x00\x02\x00\x00\x00",
        b"\x4B\x54\x2C\x02\x00\x00\x00\x02\x00\x00\x00",
    ]
    .concat();
    let output = "\
ok 2 1 1
0 10 0 1 0 0 1 0 0 0 1
1 20 0 0 0 1 4294967295 0 0 0 4294967295
link 0 0 0 0
sym 0 0 1
";
    assert_eq!(answer(&input), output.as_bytes());
    assert_eq!(script("a;").encode(), input);
}

#[test]
fn broken_records() {
    let whole = script("a;").encode();
    assert_eq!(answer(b""), b"bad input\n");
    assert_eq!(answer(&[&whole[..], b"K"].concat()), b"bad input\n");
    assert_eq!(answer(&script(&" ".repeat(8_193)).encode()), b"bad input\n");
    assert_eq!(answer(&script(&"a;".repeat(256)).encode()), b"bad input\n");
    assert_eq!(answer(&whole[..8]), b"refused 1 0 0 0 255\n\n");
}

#[test]
fn accepted_samples() {
    assert_eq!(node_rows(""), ["20 0 0 0 0 4294967295 0 0 0 4294967295"]);
    let rows =
        ["10 4 5 0 4 5 0 0 0 2", "10 10 11 1 10 11 0 0 0 2", "2 4 11 0 1 0 0 0 0 3", "4 0 3 2 0 0 0 0 0 4"];
    assert_eq!(node_rows("not a and b;")[..4], rows);
    assert_eq!(node_rows("f(a,);")[2], "15 1 5 0 0 1 0 0 0 3");
    assert_eq!(node_rows("a.b;")[1], "16 1 3 0 1 2 3 0 0 2");
    assert_eq!(node_rows("import a:;")[0], "26 0 10 0 1 1 0 0 0 1");
    assert_eq!(node_rows("{ let x = 1 }")[2], "20 0 13 0 0 1 0 0 0 3");
    assert_eq!(node_rows("{ if a {} ; }")[3], "20 0 13 0 1 4294967295 0 0 0 4");
    assert_eq!(node_rows("if a {} + 1;")[4], "20 0 0 0 2 4294967295 0 0 0 4294967295");
    assert_eq!(first_line("\"a\"; a;", 64), "ok 3 2 1");
}

/// A script with every kind of row, and for each the row that has it as a child.
#[test]
fn parents() {
    let text = "import a.b: c; fun f(x, y) { return -x; } let y = 1 + f(2, 3).b; const z = #{a: \"s\", b}; \
                ref r = |q| not q and true or nil; while a { break; continue } if a {} else { y = z }";
    let parents = "39 2 3 4 5 39 12 10 10 10 11 12 13 39 17 17 17 18 39 21 21 23 23 24 25 26 39 31 30 30 31 39 \
                   38 38 36 36 37 38 39 4294967295";
    let rows = node_rows(text);
    let told: Vec<_> = rows.iter().map(|row| row.rsplit_once(' ').unwrap().1).collect();
    assert_eq!(told.join(" "), parents);
}

#[test]
fn refused_samples() {
    for (text, limit, line) in [
        ("return;", 64, "refused 9 1 6 7 255"),
        ("(f)(x);", 64, "refused 8 3 3 4 41"),
        ("x = y = z;", 64, "refused 8 3 6 7 41"),
        ("f(a", 64, "refused 8 3 3 3 13"),
        ("f(a,", 64, "refused 8 4 4 4 18"),
        ("((a));", 2, "refused 11 2 2 3 255"),
        ("((a));", 3, "ok 2 1 1"),
        ("a;", 0, "refused 3 0 0 0 255"),
        ("a;", 65, "refused 3 0 0 0 255"),
        ("f();", 1, "ok 3 1 1"),
        ("f(", 1, "refused 8 2 2 2 18"),
        ("(", 1, "refused 11 1 1 1 255"),
        ("{ ) }", 1, "refused 11 1 2 3 255"),
        ("{ return", 1, "refused 11 2 8 8 255"),
        ("{ fun f() x }", 1, "refused 11 5 10 11 255"),
        ("{ for", 1, "refused 10 1 2 5 255"),
        ("import", 64, "refused 8 1 6 6 41"),
        ("import a.", 64, "refused 8 3 9 9 41"),
        ("import a:", 64, "refused 8 3 9 9 41"),
        ("{ import a: b }", 64, "refused 8 5 14 15 13"),
        ("{ import a: }", 64, "refused 8 4 12 13 43"),
        ("a }", 64, "refused 9 1 2 3 255"),
        ("a;;", 64, "refused 9 2 2 3 255"),
    ] {
        assert_eq!(first_line(text, limit), line, "{text} at {limit}");
    }
    assert_eq!(node_rows("{ import a }")[0], "26 2 12 0 1 1 0 0 0 1");
}

#[test]
fn depths() {
    let depths = [
        ("a;", 1),
        ("((a));", 3),
        ("+a;", 2),
        ("{}", 1),
        ("if a {}", 2),
        ("while a {}", 1),
        ("not a;", 2),
        ("#{};", 1),
        ("|x| {};", 2),
        ("if a {} else if b {}", 3),
        ("-f(x);", 3),
    ];
    for (text, depth) in depths {
        assert!(first_line(text, depth).starts_with("ok"), "{text}");
        if depth > 1 {
            assert!(first_line(text, depth - 1).starts_with("refused 11"), "{text}");
        }
    }
}

//! places COMMAND: what `COMMAND at screen.kaori ..` and `COMMAND --names names.txt ..` print, what its other options do, what
//! `COMMAND check-rows ..` says of listings, and their status, against runs that are written down here. COMMAND is the script
//! `kaori` of the project: the program alone has no status.
use std::{
    fs::{self, File},
    io::Result,
    path::Path,
    process::{Command, ExitCode, Output},
};

/// A script, the words after its name, the lines that are printed, what is said on standard error, and the status.
type Run<'a> = (&'a str, &'a [&'a str], &'a [&'a str], &'a str, i32);

const ADVANCE: &str = "if not typed and refreshed { advance(key.code); }\nlet a = 1;\n\nlet b = (a);\n";
const WORD: &str = "    1:18     Identifier                       refreshed";
const AND: &str = "    1:8      LogicalAnd and                   typed and refreshed";
const NOT: &str = "    1:4      LogicalNot not                   not typed and refreshed";
const CALLEE: &str = "    1:30     Identifier                       advance";
const DOT: &str = "    1:38     PropertyAccess                   key.code";
const CALL: &str = "    1:30     FunctionCall                     advance(key.code)";
const BLOCK: &str = "    1:28     Block                            { advance(key.code); }";
const IF: &str =
    "    1:1      If                               if not typed and refreshed { advance(key.code); }";
const OPERAND: &str = "    4:10     Identifier                       a";
const LET: &str = "    4:1      Variable                         let b = (a)";
const ALL: &str =
    "    1:1      Script                           if not typed and refreshed { advance(key.code); } le..";

const ENDS: &str = "a;\r\nb;\rc;";
const B: &str = "    2:1      Identifier                       b";
const C: &str = "    3:1      Identifier                       c";
const THREE: &str = "    1:1      Script                           a; b; c";

const REFUSED: &[&str] =
    &["screen.kaori:1:5: expected <identifier> and found `=`", "let = 1;", "    ^", "  expected a name"];
const THREE_WORDS: &str = "at takes a file, a line and a column; see kaori help";

#[rustfmt::skip]
const RUNS: &[Run] = &[
    // a word, by its first and its last byte: an operand of `and`, which `not` takes; and the blank after it
    (ADVANCE, &["1", "18"], &[WORD, AND, NOT, IF, ALL], "", 0),
    (ADVANCE, &["1", "26"], &[WORD, AND, NOT, IF, ALL], "", 0),
    (ADVANCE, &["1", "27"], &[IF, ALL], "", 0),
    (ADVANCE, &["1", "4"], &[NOT, IF, ALL], "", 0),
    // a callee, the parenthesis after it, and a name after a dot
    (ADVANCE, &["1", "30"], &[CALLEE, CALL, BLOCK, IF, ALL], "", 0),
    (ADVANCE, &["1", "37"], &[CALL, BLOCK, IF, ALL], "", 0),
    (ADVANCE, &["1", "42"], &[DOT, CALL, BLOCK, IF, ALL], "", 0),
    // an operand in parentheses, and its parenthesis
    (ADVANCE, &["4", "10"], &[OPERAND, LET, ALL], "", 0),
    (ADVANCE, &["4", "009"], &[LET, ALL], "", 0),
    // between statements: a `;`, the end of its line, an empty line, the end of the text
    (ADVANCE, &["2", "10"], &[ALL], "", 0),
    (ADVANCE, &["2", "11"], &[ALL], "", 0),
    (ADVANCE, &["3", "1"], &[ALL], "", 0),
    (ADVANCE, &["5", "1"], &[ALL], "", 0),
    // an empty script
    ("", &["1", "1"], &["    1:1      Script"], "", 0),
    ("", &["1", "2"], &[], "screen.kaori: no place 1:2 in it", 2),
    ("", &["2", "1"], &[], "screen.kaori: no place 2:1 in it", 2),
    // lines that end with a return and a newline, with a return, and with the text
    (ENDS, &["1", "3"], &[THREE], "", 0),
    (ENDS, &["1", "4"], &[THREE], "", 0),
    (ENDS, &["1", "5"], &[], "screen.kaori: no place 1:5 in it", 2),
    (ENDS, &["2", "1"], &[B, THREE], "", 0),
    (ENDS, &["2", "3"], &[THREE], "", 0),
    (ENDS, &["2", "4"], &[], "screen.kaori: no place 2:4 in it", 2),
    (ENDS, &["3", "1"], &[C, THREE], "", 0),
    (ENDS, &["3", "3"], &[THREE], "", 0),
    (ENDS, &["3", "4"], &[], "screen.kaori: no place 3:4 in it", 2),
    (ENDS, &["4", "1"], &[], "screen.kaori: no place 4:1 in it", 2),
    // a script that is refused, also where it has no such place
    ("let = 1;", &["1", "1"], REFUSED, "", 1),
    ("let = 1;", &["9", "9"], REFUSED, "", 1),
    // words that are no place
    ("a;", &["0", "1"], &[], "0: not a number from 1 to 999,999,999", 2),
    ("a;", &["1", "0"], &[], "0: not a number from 1 to 999,999,999", 2),
    ("a;", &["1x", "1"], &[], "1x: not a number from 1 to 999,999,999", 2),
    ("a;", &["1", ""], &[], ": not a number from 1 to 999,999,999", 2),
    ("a;", &["4294967297", "1"], &[], "4294967297: not a number from 1 to 999,999,999", 2),
    ("a;", &["1", "999999999"], &[], "screen.kaori: no place 1:999999999 in it", 2),
    ("a;", &["1"], &[], THREE_WORDS, 2),
    ("a;", &["1", "1", "1"], &[], THREE_WORDS, 2),
];

/// The text of names.txt, a script, the words of the command, and the rest as of a run.
type Named<'a> = (&'a str, &'a str, &'a [&'a str], &'a [&'a str], &'a str, i32);

const STATION: &str = "show\nadvance\n\nbeep\n";
const TREE: &[&str] = &["tree", "screen.kaori"];
const CHECK: &[&str] = &["check", "screen.kaori"];

/// Every kind of row that has a name, and a string, a property and names of a list that spell one.
const SPELLED: &str =
    "fun show(beep) { let advance = \"show\"; key.show; advance }\nconst beep = 1;\nref shown = beep;\n";
const SPELLED_TREE: &[&str] = &[
    "",
    "line 1: fun show(beep) { let advance = \"show\"; key.show; advance }",
    "  reads as",
    "    fun show(beep) {",
    "      let advance = \"show\";",
    "      key.show;",
    "      advance",
    "    }",
    "  tree",
    "    1:1      Function (built-in)              fun show(beep) { let advance = \"show\"; key.show; adv..",
    "    1:16       Block                          { let advance = \"show\"; key.show; advance }",
    "    1:18         Variable (built-in)          let advance = \"show\"",
    "    1:32           String                     \"show\"",
    "    1:40         PropertyAccess               key.show",
    "    1:40           Identifier                 key",
    "    1:50         Identifier (built-in) (tail) advance",
    "",
    "line 2: const beep = 1",
    "  reads as",
    "    const beep = 1;",
    "  tree",
    "    2:1      Constant (built-in)              const beep = 1",
    "    2:14       Number                         1",
    "",
    "line 3: ref shown = beep",
    "  reads as",
    "    ref shown = beep;",
    "  tree",
    "    3:1      Ref                              ref shown = beep",
    "    3:13       Identifier (built-in)          beep",
];
const SPELLED_AT: &[&str] = &[
    "    1:50     Identifier (built-in)            advance",
    "    1:16     Block                            { let advance = \"show\"; key.show; advance }",
    "    1:1      Function (built-in)              fun show(beep) { let advance = \"show\"; key.show; adv..",
    "    1:1      Script                           fun show(beep) { let advance = \"show\"; key.show; adv..",
];

/// `beep(a);`: the built-in rows stand first, and the script's own name follows.
const ROWS: &[&str] = &[
    "ok 4 2 4",
    "0 10 0 4 2 0 4 0 0 0 2",
    "1 10 5 6 3 5 6 0 0 0 2",
    "2 15 4 7 0 0 1 0 0 0 3",
    "3 20 0 0 1 1 4294967295 0 0 0 4294967295",
    "link 0 1 0 0",
    "link 1 2 0 0",
    "sym 0 0 4",
    "sym 1 5 12",
    "sym 2 14 18",
    "sym 3 5 6",
];

#[rustfmt::skip]
const NAMED: &[Named] = &[
    // what is marked and what is not, in the tree and at a place
    (STATION, SPELLED, TREE, SPELLED_TREE, "", 0),
    (STATION, SPELLED, &["at", "screen.kaori", "1", "52"], SPELLED_AT, "", 0),
    // the rows, and the report of a script that is refused
    (STATION, "beep(a);", &["rows", "screen.kaori"], ROWS, "", 0),
    (STATION, "let = 1;", CHECK, REFUSED, "", 1),
    (STATION, "a;", CHECK, &[], "", 0),
    // no names, and lines that end as they may
    ("", "a;", CHECK, &[], "", 0),
    ("\n\r\r\n", "a;", CHECK, &[], "", 0),
    ("a\r\n\r\nb\rc\n\nd", "a;", CHECK, &[], "", 0),
    // words that are no command
    (STATION, "a;", &["show"], &[], "show: no such command; see kaori help", 2),
    (STATION, "a;", &["check"], &[], "no file is named; see kaori help", 2),
    (STATION, "a;", &["at", "screen.kaori", "1"], &[], THREE_WORDS, 2),
];

/// A script, which is standard input too, the words of the command, and the rest as of a run.
type Wide<'a> = (&'a [u8], &'a [&'a str], &'a [&'a str], &'a str, i32);

const VERSION: &str = "kaori 1.0.0: the syntax of Kaori, editions 1 and 2";
const REFUSED_JSON: &str = "{\"file\":\"screen.kaori\",\"line\":1,\"column\":5,\"start\":4,\"end\":5,\"severity\":\"error\",\
    \"code\":8,\"message\":\"expected <identifier> and found `=`\",\"hints\":[\"expected a name\"]}";
/// A `not` that took an `and`.
const NOT_TAKES: &[&str] = &[
    "screen.kaori:1:4: warning: `not` takes all of this: a and b",
    "if not a and b { c(); }",
    "   ^^^^^^^^^^^",
    "  for `not` on the first alone, write: (not a) and b",
    "  for `not` on all of it, write: not (a and b)",
];
/// `-a;` and a string of bytes, as rows.
const SIGN: &[u8] = b"-a; \"\\\"\x01\r\n\x7F\";";
#[rustfmt::skip]
const SIGN_JSON: &[&str] = &[
    r#"{"file":"-","row":0,"parent":1,"kind":"Identifier","tail":false,"built_in":false,"warning":false,"line":1,"column":2,"start":1,"end":2,"text":"a"}"#,
    r#"{"file":"-","row":1,"parent":3,"kind":"Unary","operator":"-","tail":false,"built_in":false,"warning":false,"line":1,"column":1,"start":0,"end":2,"text":"-a"}"#,
    r#"{"file":"-","row":2,"parent":3,"kind":"String","tail":false,"built_in":false,"warning":true,"line":1,"column":5,"start":4,"end":12,"text":"\"\\\"\u0001\u000d\u000a\u007f\""}"#,
    r#"{"file":"-","row":3,"parent":null,"kind":"Script","tail":false,"built_in":false,"warning":false,"line":1,"column":1,"start":0,"end":12,"text":"-a; \"\\\"\u0001\u000d\u000a\u007f\""}"#,
];
/// Bytes that are not printed: in a string of a good script, and on a line that is refused.
const CONTROL: &[u8] = b"a(\"x  y\x1B\t\n\r\\\r\"  ,  b);";
#[rustfmt::skip]
const CONTROL_TREE: &[&str] = &[
    "",
    r#"line 1: a("x  y\x1b\t"#,
    "  reads as",
    "    a(\"x  y\\x1b\t",
    "",
    r#"\\x0d", b);"#,
    "  tree",
    r#"    1:1      FunctionCall                     a("x  y\x1b\t\n\r\\r" , b)"#,
    "    1:1        Identifier                     a",
    r#"    1:3        String (warning)               "x  y\x1b\t\n\r\\r""#,
    "    4:7        Identifier                     b",
];
const BYTES: &[u8] = b"a;\t\"\x1B\xC3\xA9\";";
const BYTES_LINES: &[&str] = &[
    "screen.kaori:1:6: a byte that is not ASCII",
    "a;\t\"\\x1b\\xc3\\xa9\";",
    "  \t     ^",
    "  hint: byte c3 a9 is no ASCII letter: type `e`, in strings too",
];
const NOT_BYTES: &[&str] = &[
    "screen.kaori:1:6: `not` takes less in edition 2",
    "\"\\x1b\"; not \"\\x07\" and b;",
    "        ^^^^^^^^^^^^^^^^ in edition 1",
    "        ^^^^^^^^^^ in edition 2",
    "screen.kaori: 1 difference between the editions",
];
/// `beep(a);` as rows; and with the script itself as the argument of the call.
const BEEP: &[u8] = b"ok 4 2 2\n0 10 0 4 0 0 4 0 0 0 2\n1 10 5 6 1 5 6 0 0 0 2\n2 15 4 7 0 0 1 0 0 0 3\n\
    3 20 0 0 1 1 4294967295 0 0 0 4294967295\nlink 0 1 0 0\nlink 1 2 0 0\nsym 0 0 4\nsym 1 5 6\n";
const BEEP_LATE: &[u8] =
    b"ok 4 2 2\n0 10 0 4 0 0 4 0 0 0 2\n1 10 5 6 1 5 6 0 0 0 2\n2 15 4 7 0 0 1 0 0 0 3\n\
    3 20 0 0 1 1 4294967295 0 0 0 4294967295\nlink 0 3 0 0\nlink 1 2 0 0\nsym 0 0 4\nsym 1 5 6\n";
const LATE: &[&str] = &[
    "screen.kaori: row 2 breaks rule 3: a row names only rows before it, in its links too",
    "2 15 4 7 0 0 1 0 0 0 3",
];
/// `return;` of edition 2.
const RETURN: &[u8] = b"ok 2 1 0\r\n0 23 0 6 4294967295 0 0 0 0 0 1\r\n1 20 0 0 0 1 4294967295 0 0 0 4294967295\r\nlink 0 0 0 0\r\n";
const RETURNED: &[&str] = &[
    "screen.kaori: row 0 breaks rule 7: a row is absent, 4294967295, only where its kind allows that, in its links too",
    "0 23 0 6 4294967295 0 0 0 0 0 1",
];
/// No statements, and a link: in no list; and passed over by the list of the root.
const LEFT: &[u8] = b"ok 1 1 0\n0 20 0 0 0 0 4294967295 0 0 0 4294967295\nlink 0 7 0 0\n";
const LEFT_OVER: &[&str] = &[
    "screen.kaori: row 0 breaks rule 6: lists of links hold all links, and none holds this one",
    "link 0 7 0 0",
];
const PASSED: &[u8] = b"ok 1 1 0\n0 20 0 0 1 0 4294967295 0 0 0 4294967295\nlink 0 7 0 0\n";
const PASSED_OVER: &[&str] = &[
    "screen.kaori: row 0 breaks rule 6: lists of links follow each other, in the order of the rows",
    "0 20 0 0 1 0 4294967295 0 0 0 4294967295",
];
const NO_ROWS: &[&str] = &[
    "screen.kaori: row 0 breaks rule 5: the last row is a Block with no tail, and there is no row",
    "ok 0 0 0",
];
const NO_HEAD: &str = "screen.kaori:1: not the first line of a listing: ok, three counts and a newline";
const TOO_MANY: &str = "screen.kaori:1: more than 4,096 rows, 4,096 links or 4,160 symbols";
const NO_ROW: &str = "screen.kaori:2: not row 0: its number, ten numbers and a newline";
const NO_LINK: &str = "screen.kaori:3: not link 0: link, its number, three numbers and a newline";
const NO_SYMBOL: &str = "screen.kaori:3: not symbol 0: sym, its number, two numbers and a newline";
const A: &[&str] =
    &["", "line 1: a", "  reads as", "    a;", "  tree", "    1:1      Identifier                       a"];
const GUARD: &[&str] =
    &["a", "  reads as", "    a", "  tree", "    1:1      Identifier                       a"];
const UNENDED: &[&str] = &["guard:1:2: expected <end of file> and found `;`", "a;", " ^"];
const TWO: &[&str] = &["== screen.kaori", A[0], A[1], A[2], A[3], A[4], A[5]];

#[rustfmt::skip]
const WIDE: &[Wide] = &[
    (b"", &["--version"], &[VERSION], "", 0),
    // standard input, also beside a file, and as a place
    (b"a;", &["tree", "-"], A, "", 0),
    (b"let = 1;", &["check", "-"], &["-:1:5: expected <identifier> and found `=`", REFUSED[1], REFUSED[2], REFUSED[3]], "", 1),
    (b"a;", &["at", "-", "9", "1"], &[], "-: no place 9:1 in it", 2),
    (b"a\nlet", &["--names", "-", "check", "screen.kaori"], &[], "-:2: not a name, or one that stands above it", 2),
    // the name of a file stands above what is shown of it, and only there
    (b"a;", &["tree", "screen.kaori", "empty.kaori"], TWO, "", 0),
    (b"a;", &["tree", "empty.kaori", "empty.kaori"], &[], "", 0),
    (b"a;", &["rows", "empty.kaori", "empty.kaori"], &["== empty.kaori", "ok 1 0 0", "0 20 0 0 0 0 4294967295 0 0 0 4294967295", "== empty.kaori", "ok 1 0 0", "0 20 0 0 0 0 4294967295 0 0 0 4294967295"], "", 0),
    (b"a;", &["tree", "gone.kaori", "empty.kaori"], &[], "gone.kaori: No such file or directory", 2),
    // options before and after the command
    (b"return;", &["--edition", "2", "check", "screen.kaori"], &[], "", 0),
    (b"return;", &["check", "--edition", "2", "screen.kaori"], &[], "", 0),
    (b"return;", &["check", "--strict", "--edition", "2", "--names", "empty.kaori", "screen.kaori"], &[], "", 0),
    (b"if not a and b { c(); }", &["check", "screen.kaori"], NOT_TAKES, "", 0),
    (b"if not a and b { c(); }", &["check", "--strict", "screen.kaori"], NOT_TAKES, "", 1),
    (b"if not (a and b) { c(); }", &["check", "--strict", "screen.kaori"], &[], "", 0),
    (b"a;", &["--strict", "check", "screen.kaori"], &[], "", 0),
    (b"a;", &["check", "--edition", "3", "screen.kaori"], &[], "--edition takes 1 or 2; see kaori help", 2),
    (b"a;", &["check", "--edition"], &[], "--edition takes 1 or 2; see kaori help", 2),
    (b"a;", &["check", "--names"], &[], "--names takes a file; see kaori help", 2),
    (b"a;", &["tree", "--strict", "screen.kaori"], &[], "--strict goes with check; see kaori help", 2),
    (b"a;", &["rows", "--json", "screen.kaori"], &[], "--json goes with check, check-rows or tree; see kaori help", 2),
    (b"a;", &["--colour", "tree", "screen.kaori"], &[], "--colour: no such command; see kaori help", 2),
    (b"a;", &["check ", "screen.kaori"], &[], "check : no such command; see kaori help", 2),
    (b"a;", &["check", "screen.kaori", "--json"], &[], "--json: options stand before the files; see kaori help", 2),
    // objects
    (b"a;", &["check", "--json", "screen.kaori"], &[], "", 0),
    (b"let = 1;", &["check", "--json", "screen.kaori"], &[REFUSED_JSON], "", 1),
    (b"let = 1;", &["--json", "tree", "screen.kaori", "empty.kaori"], &[REFUSED_JSON, r#"{"file":"empty.kaori","row":0,"parent":null,"kind":"Script","tail":false,"built_in":false,"warning":false,"line":1,"column":1,"start":0,"end":0,"text":""}"#], "", 1),
    (SIGN, &["tree", "--json", "-"], SIGN_JSON, "", 0),
    // guards, whose texts are the words; a file of that name is not looked at
    (b"", &["guard", "a"], GUARD, "", 0),
    (b"", &["guard", "a", "a;", "a"], &[GUARD[0], GUARD[1], GUARD[2], GUARD[3], GUARD[4], UNENDED[0], UNENDED[1], UNENDED[2], GUARD[0], GUARD[1], GUARD[2], GUARD[3], GUARD[4]], "", 1),
    (b"", &["guard", "screen.kaori"], &["screen.kaori", GUARD[1], "    screen.kaori", GUARD[3], "    1:1      PropertyAccess                   screen.kaori", "    1:1        Identifier                     screen"], "", 0),
    (b"", &["guard", "a | {"], &["guard:1:3: a guard has no {, if, | or #", "a | {", "  ^"], "", 1),
    (b"", &["guard", ""], &["guard:1:1: expected a <operand> and found: <end of file>", "", "^"], "", 1),
    (b"", &["guard", "-"], &["guard:1:2: expected a <operand> and found: <end of file>", "-", " ^"], "", 1),
    (b"", &["--edition", "2", "guard", "(a)()"], &["(a)()", GUARD[1], "    a()", GUARD[3], "    1:1      FunctionCall                     (a)()", "    1:2        Identifier                     a"], "", 0),
    (b"", &["guard", "--edition", "1", "(a)()"], &["guard:1:4: expected <end of file> and found `(`", "(a)()", "   ^"], "", 1),
    (b"a", &["--names", "screen.kaori", "guard", "a"], &[GUARD[0], GUARD[1], GUARD[2], GUARD[3], "    1:1      Identifier (built-in)            a"], "", 0),
    (b"", &["guard"], &[], "guard takes a text; see kaori help", 2),
    (b"", &["guard", "a", "--strict"], GUARD, "--strict: options stand before the files; see kaori help", 2),
    (b"", &["--json", "guard", "a"], &[], "--json goes with check, check-rows or tree; see kaori help", 2),
    (b"", &["guard", "--strict", "a"], &[], "--strict goes with check; see kaori help", 2),
    // rows of another build: those of a tree, or the first rule that is broken and the line of the row
    (BEEP, &["check-rows", "screen.kaori", "-"], &[], "", 0),
    (BEEP, &["--edition", "2", "check-rows", "screen.kaori"], &[], "", 0),
    (BEEP, &["check-rows", "--json", "screen.kaori", "-"], &[r#"{"file":"screen.kaori","ok":true}"#, r#"{"file":"-","ok":true}"#], "", 0),
    (BEEP_LATE, &["check-rows", "screen.kaori"], LATE, "", 1),
    (BEEP_LATE, &["--json", "check-rows", "screen.kaori"], &[r#"{"file":"screen.kaori","ok":false,"rule":3,"row":2}"#], "", 1),
    (BEEP_LATE, &["check-rows", "screen.kaori", "empty.kaori"], LATE, "empty.kaori:1: not the first line of a listing: ok, three counts and a newline", 2),
    (RETURN, &["check-rows", "screen.kaori"], RETURNED, "", 1),
    (RETURN, &["check-rows", "--edition", "2", "screen.kaori"], &[], "", 0),
    (LEFT, &["check-rows", "screen.kaori"], LEFT_OVER, "", 1),
    (PASSED, &["check-rows", "screen.kaori"], PASSED_OVER, "", 1),
    (b"ok 0 0 0\n", &["check-rows", "screen.kaori"], NO_ROWS, "", 1),
    (b"ok 0 0 0\n", &["check-rows", "--json", "screen.kaori"], &[r#"{"file":"screen.kaori","ok":false,"rule":5,"row":0}"#], "", 1),
    // files that are no listing
    (b"", &["check-rows", "--json", "screen.kaori"], &[], NO_HEAD, 2),
    (b"ok 0 0\n", &["check-rows", "screen.kaori"], &[], NO_HEAD, 2),
    (b"ok 0 0 0", &["check-rows", "screen.kaori"], &[], NO_HEAD, 2),
    (b"ok 0 0 0 \n", &["check-rows", "screen.kaori"], &[], NO_HEAD, 2),
    (b"ok  0 0 0\n", &["check-rows", "screen.kaori"], &[], NO_HEAD, 2),
    (b"ok 0 0 4294967296\n", &["check-rows", "screen.kaori"], &[], NO_HEAD, 2),
    (b"ok 0 0 18446744073709551616\n", &["check-rows", "screen.kaori"], &[], NO_HEAD, 2),
    (b"== screen.kaori\nok 0 0 0\n", &["check-rows", "screen.kaori"], &[], NO_HEAD, 2),
    (b"refused 8 1 4 5 2\n", &["check-rows", "screen.kaori"], &[], NO_HEAD, 2),
    (b"ok 4097 0 0\n", &["check-rows", "screen.kaori"], &[], TOO_MANY, 2),
    (b"ok 0 4097 0\n", &["check-rows", "screen.kaori"], &[], TOO_MANY, 2),
    (b"ok 0 0 4161\n", &["check-rows", "screen.kaori"], &[], TOO_MANY, 2),
    (b"ok 0 0 4160\n", &["check-rows", "screen.kaori"], &[], "screen.kaori:2: the file ends before symbol 0", 2),
    (b"ok 1 0 0\n", &["check-rows", "screen.kaori"], &[], "screen.kaori:2: the file ends before row 0", 2),
    (b"ok 1 0 0\n\n", &["check-rows", "screen.kaori"], &[], NO_ROW, 2),
    (b"ok 1 0 0\n1 20 0 0 0 0 4294967295 0 0 0 4294967295\n", &["check-rows", "screen.kaori"], &[], NO_ROW, 2),
    (b"ok 1 0 0\n0 20 0 0 0 0 4294967296 0 0 0 4294967295\n", &["check-rows", "screen.kaori"], &[], NO_ROW, 2),
    (b"ok 1 0 0\n0 20 0 0 0 0 4294967295 0 0 0\n", &["check-rows", "screen.kaori"], &[], NO_ROW, 2),
    (b"ok 1 0 0\n0 20 0 0 0 0 4294967295 0 0 0 4294967295", &["check-rows", "screen.kaori"], &[], NO_ROW, 2),
    (b"ok 1 0 0\n0 20 0 0 0 0 4294967295 0 0 0 4294967295\r", &["check-rows", "screen.kaori"], &[], NO_ROW, 2),
    (b"ok 1 1 0\n0 20 0 0 0 0 4294967295 0 0 0 4294967295\nlink 0 0 0 -1\n", &["check-rows", "screen.kaori"], &[], NO_LINK, 2),
    (b"ok 1 1 0\n0 20 0 0 0 0 4294967295 0 0 0 4294967295\nsym 0 0 0\n", &["check-rows", "screen.kaori"], &[], NO_LINK, 2),
    (b"ok 1 0 1\n0 20 0 0 0 0 4294967295 0 0 0 4294967295\nsym 0 0\n", &["check-rows", "screen.kaori"], &[], NO_SYMBOL, 2),
    (b"ok 1 0 0\n0 20 0 0 0 0 4294967295 0 0 0 4294967295\n\n", &["check-rows", "screen.kaori"], &[], "screen.kaori:3: a line after the last one of the listing", 2),
    // words and options that do not go with it
    (BEEP, &["check-rows"], &[], "no file is named; see kaori help", 2),
    (BEEP, &["check-rows", "gone.rows"], &[], "gone.rows: No such file or directory", 2),
    (BEEP, &["check-rows", "--strict", "screen.kaori"], &[], "--strict goes with check; see kaori help", 2),
    (BEEP, &["check-rows", "--names", "empty.kaori", "screen.kaori"], &[], "--names goes with scripts; see kaori help", 2),
    (BEEP, &["check-rowss", "screen.kaori"], &[], "check-rowss: no such command; see kaori help", 2),
    // bytes that are not printed
    (CONTROL, &["tree", "screen.kaori"], CONTROL_TREE, "", 0),
    (BYTES, &["check", "screen.kaori"], BYTES_LINES, "", 1),
    (b"\"\x1B\"; not \"\x07\" and b;", &["compare", "screen.kaori"], NOT_BYTES, "", 1),
    (b"", &["check", "\x1B[2J\u{e9}.kaori"], &[], "\\x1b[2J\\xc3\\xa9.kaori: No such file or directory", 2),
];

/// Words of a command whose standard output takes nothing: one line is said, and the status is 2. A script that is good shows nothing.
const FULL: &[(&[&str], &str, i32)] = &[
    (
        &["tree", "screen.kaori", "screen.kaori", "then", "tree", "screen.kaori"],
        "standard output: No space left on device",
        2,
    ),
    (&["tree", "--json", "screen.kaori"], "standard output: No space left on device", 2),
    (&["rows", "screen.kaori"], "standard output: No space left on device", 2),
    (&["compare", "screen.kaori"], "standard output: No space left on device", 2),
    (&["guard", "a", "b"], "standard output: No space left on device", 2),
    (&["check-rows", "none.rows", "none.rows"], "standard output: No space left on device", 2),
    (&["help"], "standard output: No space left on device", 2),
    (&["--version"], "standard output: No space left on device", 2),
    (&["check", "screen.kaori", "empty.kaori"], "", 0),
];

/// Files of so many blanks, and what `check-rows` says of them.
const BLANKS: &[(usize, &str)] = &[
    (1_048_576, NO_HEAD),
    (1_048_577, "screen.kaori: file too large: a listing has at most 1,048,576 bytes"),
];

/// Scripts whose rows, as they are listed, are those of a tree, in both editions, without names and beside some.
const LISTED: &[&str] = &[
    "",
    ADVANCE,
    ENDS,
    SPELLED,
    "import a.b: c; while -a { break; continue } if a {} else if b { return nil } else { x = ^y }",
    "let m = #{\"k\": 1 * 2 + 3, b}; |p, q| {}; a.b(c, d).e; not true or x != y;",
];

const LISTINGS: &[&[&str]] =
    &[&["--edition", "1"], &["--edition", "2"], &["--edition", "1", "--names", "names.txt"]];
const PASSES: &str = r#"{"file":"screen.rows","ok":true}"#;

/// Texts of names.txt, and the line that is wrong: a keyword, blanks, a digit first, a byte past ASCII, two words; a name that
/// stands above it; and lines that end as they may. The script is refused too, but nothing is said of it.
#[rustfmt::skip]
const WRONG: &[(&str, usize)] = &[
    ("a\nlet", 2), (" a", 1), ("a\nb \nc", 2), ("a\n1b", 2), ("caf\u{e9}", 1), ("a b", 1), ("a\nb\na", 3),
    ("a\r\n\r\nb\rc\n\nc", 6), ("a\r\r\r\nnil\nnil", 4),
];

/// So many names, what is said, and the status.
const COUNTED: &[(usize, &str, i32)] = &[(64, "", 0), (65, "names.txt:65: more than 64 names", 2)];

fn main() -> ExitCode {
    let Some(program) = std::env::args().nth(1) else {
        eprintln!("usage: places COMMAND");
        return ExitCode::from(2);
    };
    let folder = std::env::temp_dir().join(format!("kaori-places-{}", std::process::id()));
    let done = fs::create_dir(&folder).and_then(|()| run(&program, &folder));
    let gone = fs::remove_dir_all(&folder);
    match done.and_then(|code| gone.map(|()| code)) {
        Ok(code) => code,
        Err(error) => {
            eprintln!("{error}");
            ExitCode::from(2)
        }
    }
}

/// What is printed and said of a run, and its status.
fn told(said: &Output) -> (String, String, Option<i32>) {
    let text = |bytes: &[u8]| String::from_utf8_lossy(bytes).into_owned();
    (text(&said.stdout), text(&said.stderr), said.status.code())
}

/// Whether a run differs, which is then shown.
fn differs(mut command: Command, what: &str, lines: &[&str], error: &str, status: i32) -> Result<bool> {
    let out: String = lines.iter().map(|line| format!("{line}\n")).collect();
    let error = if error.is_empty() { String::new() } else { format!("kaori: {error}\n") };
    let expected = (out, error, Some(status));
    let told = told(&command.output()?);
    if told == expected {
        return Ok(false);
    }
    println!("{what}\nplaces.rs {expected:?}\nprogram   {told:?}");
    Ok(true)
}

fn run(program: &str, folder: &Path) -> Result<ExitCode> {
    let program = fs::canonicalize(program)?;
    let command = |words: &[&str]| {
        let mut command = Command::new(&program);
        command.args(words).current_dir(folder);
        command
    };
    let mut differences = 0;
    for (script, place, lines, error, status) in RUNS {
        fs::write(folder.join("screen.kaori"), script)?;
        let words = [&["at", "screen.kaori"], *place].concat();
        let what = format!("\"{}\" at {}", script.escape_default(), place.join(" "));
        differences += differs(command(&words), &what, lines, error, *status)? as usize;
    }
    let named = |names: &str, script: &str, words: &[&str], lines: &[&str], error: &str, status: i32| {
        fs::write(folder.join("names.txt"), names)?;
        fs::write(folder.join("screen.kaori"), script)?;
        let words = [&["--names", "names.txt"], words].concat();
        let what = format!("{:?}, {:?} {}", names, script, words.join(" "));
        differs(command(&words), &what, lines, error, status)
    };
    for (names, script, words, lines, error, status) in NAMED {
        differences += named(names, script, words, lines, error, *status)? as usize;
    }
    for (names, line) in WRONG {
        let error = format!("names.txt:{line}: not a name, or one that stands above it");
        differences += named(names, "let = 1;", CHECK, &[], &error, 2)? as usize;
    }
    for (count, error, status) in COUNTED {
        let names: String = (0..*count).map(|i| format!("name{i}\n")).collect();
        differences += named(&names, "a;", CHECK, &[], error, *status)? as usize;
    }
    fs::write(folder.join("empty.kaori"), "")?;
    for (script, words, lines, error, status) in WIDE {
        fs::write(folder.join("screen.kaori"), script)?;
        let mut wide = command(words);
        wide.stdin(File::open(folder.join("screen.kaori"))?);
        let what = format!("\"{}\" {}", script.escape_ascii(), words.join(" "));
        differences += differs(wide, &what, lines, error, *status)? as usize;
    }
    fs::write(folder.join("screen.kaori"), "a;")?;
    fs::write(folder.join("none.rows"), "ok 0 0 0\n")?;
    for (words, error, status) in FULL {
        let mut full = command(words);
        full.stdout(File::create("/dev/full")?);
        differences +=
            differs(full, &format!("{} > /dev/full", words.join(" ")), &[], error, *status)? as usize;
    }
    for (count, error) in BLANKS {
        fs::write(folder.join("screen.kaori"), " ".repeat(*count))?;
        let what = format!("{count} blanks, check-rows");
        differences += differs(command(&["check-rows", "screen.kaori"]), &what, &[], error, 2)? as usize;
    }
    fs::write(folder.join("names.txt"), STATION)?;
    for script in LISTED {
        fs::write(folder.join("screen.kaori"), script)?;
        for options in LISTINGS {
            let rows = command(&[*options, &["rows", "screen.kaori"]].concat()).output()?.stdout;
            fs::write(folder.join("screen.rows"), rows)?;
            let what = format!("\"{}\" {} rows, and check-rows", script.escape_default(), options.join(" "));
            let edition = ["--edition", options[1], "--json", "check-rows", "screen.rows"];
            differences += differs(command(&edition), &what, &[PASSES], "", 0)? as usize;
        }
    }
    let listed = BLANKS.len() + LISTED.len() * LISTINGS.len();
    let runs = RUNS.len() + NAMED.len() + WRONG.len() + COUNTED.len() + WIDE.len() + FULL.len() + listed;
    println!("{runs} runs, {differences} differences");
    Ok(ExitCode::from((differences > 0) as u8))
}

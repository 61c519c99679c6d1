//! Every offset of every text of up to seven bytes out of a letter, a newline and a return, against the oracle's own way to
//! its line and column.
#[path = "../../../oracle/src/lines.rs"]
#[allow(dead_code)]
mod lines;

use kaori_syntax::place;

#[test]
fn every_line_end() {
    let texts = lines::texts("a\n\r", 7);
    let mut places = 0;
    for text in &texts {
        for offset in 0..=text.len() {
            let ours = place(text.as_bytes(), offset).map(|p| (p.line as usize, p.column as usize));
            assert_eq!(ours, Some(lines::place(text, offset)), "{text:?} at {offset}");
            places += 1;
        }
        assert_eq!(place(text.as_bytes(), text.len() + 1), None);
    }
    assert_eq!((texts.len(), places), (3_280, 24_604));
}

//! Lines and columns by a way of their own (request L3). The return of a pair becomes a byte of its line and every other return
//! a newline, which moves no offset; then a line ends at byte 10 alone, as document 01 had it.

/// What stands for a pair: a byte of the line for its return, and its newline.
const PAIR: &str = "\0\n";

/// Every text of at most `length` bytes out of these, the shortest first.
pub fn texts(bytes: &str, length: usize) -> Vec<String> {
    let mut all = vec![String::new()];
    let mut from = 0;
    for _ in 0..length {
        let upto = all.len();
        for i in from..upto {
            let longer: Vec<_> = bytes.chars().map(|byte| format!("{}{byte}", all[i])).collect();
            all.extend(longer);
        }
        from = upto;
    }
    all
}

/// The text with newlines alone.
fn plain(text: &str) -> String {
    text.replace("\r\n", PAIR).replace('\r', "\n")
}

/// The line and the column of an offset.
pub fn place(text: &str, offset: usize) -> (usize, usize) {
    let plain = plain(text);
    let before = &plain[..offset];
    let column = before.rfind('\n').map_or(offset, |end| offset - end - 1);
    (1 + before.matches('\n').count(), 1 + column)
}

/// What is written on the line of an offset.
pub fn written(text: &str, offset: usize) -> String {
    let plain = plain(text);
    let line = plain.split('\n').nth(place(text, offset).0 - 1);
    line.unwrap_or_default().trim_end_matches('\0').to_string()
}

//! Legal names and extensions: "1 to 6 of A-Z, 0-9, then blanks", "0 to 3 such, then blanks" (01).

/// How many characters stand before the blanks of a word; `None` if another than A-Z, 0-9 stands there, or one stands
/// behind a blank.
fn characters(word: usize) -> Option<usize> {
    if word >= 64000 {
        return None;
    }
    let codes = [word / 1600, word / 40 % 40, word % 40];
    let count = codes.iter().take_while(|&&code| matches!(code, 1..=26 | 30..=39)).count();
    codes[count..].iter().all(|&code| code == 0).then_some(count)
}

/// Whether two words are a legal name.
pub fn is_name(name1: usize, name2: usize) -> bool {
    match characters(name1) {
        None | Some(0) => false,
        // The blanks have begun, so all of the second word is blank.
        Some(1 | 2) => name2 == 0,
        Some(_) => characters(name2).is_some(),
    }
}

/// Whether a word is a legal extension, which the blank one is.
pub fn is_extension(extension: usize) -> bool {
    characters(extension).is_some()
}

//! A line of an LLVM module as words.

/// The words of a line: names with their mark (`%a0`, `@"abi::crew_group"`, `!1`,
/// `#0`), numbers and keywords, and every other character by itself. A name in
/// quotation marks is one word with its mark; a comment is none.
pub fn words(line: &str) -> Vec<&str> {
    let mut words = Vec::new();
    let mut rest = line.trim_start();
    while !rest.is_empty() && !rest.starts_with(';') {
        let end = end_of_word(rest);
        let (word, behind) = rest.split_at(end);
        words.push(word);
        rest = behind.trim_start();
    }
    words
}

fn end_of_word(text: &str) -> usize {
    let marked = text.starts_with(['%', '@', '!', '#']);
    let body = &text[usize::from(marked)..];
    if let Some(quoted) = body.strip_prefix('"') {
        return text.len() - quoted.len() + quoted.find('"').map_or(quoted.len(), |end| end + 1);
    }
    let inside = |letter: char| letter.is_ascii_alphanumeric() || "_.-$".contains(letter);
    let end = body.find(|letter| !inside(letter)).unwrap_or(body.len());
    (text.len() - body.len() + end).max(1)
}

#[cfg(test)]
mod tests {
    use super::words;

    #[test]
    fn of_lines() {
        assert_eq!(
            words("  %r0 = call i8 @\"abi::x y\"(i8 -1, ptr %a.1), !range !2 ; why"),
            [
                "%r0",
                "=",
                "call",
                "i8",
                "@\"abi::x y\"",
                "(",
                "i8",
                "-1",
                ",",
                "ptr",
                "%a.1",
                ")",
                ",",
                "!range",
                "!2"
            ]
        );
        assert_eq!(words("}"), ["}"]);
        assert_eq!(words("  <2 x i8>"), ["<", "2", "x", "i8", ">"]);
    }
}

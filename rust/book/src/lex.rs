//! The words of the checker's language: names, marks, texts, comments, each with its place.
//!
//! A name is any run of characters other than spaces and `( ) { } . ; , @ " « »`; what stands between `«` and `»` is one name.

/// What a word is.
#[derive(Clone, Copy, PartialEq, Eq, Debug)]
pub enum Kind {
    Name,
    Number,
    Mark,
    Text,
    Comment,
}

/// A word: its bytes in the text, its line from 1, its column from 0, and whether it follows the word before it without a space.
#[derive(Clone, Copy, Debug)]
pub struct Word {
    pub kind: Kind,
    pub start: usize,
    pub end: usize,
    pub line: usize,
    pub column: usize,
    pub tight: bool,
}

impl Word {
    /// The word as it is written.
    pub fn of<'a>(&self, text: &'a str) -> &'a str {
        &text[self.start..self.end]
    }
}

/// Whether a character ends a name.
fn ends_name(c: char) -> bool {
    matches!(c, ' ' | '\n' | '(' | ')' | '{' | '}' | '.' | ';' | ',' | '@' | '"' | '«' | '»') || c.is_whitespace()
}

/// The end of the word that begins at the start of `rest`, which is no space, and what it is.
fn word_at(rest: &str) -> (usize, Kind) {
    let until = |mark: &str, from: usize| rest[from..].find(mark).map_or(rest.len(), |k| from + k + mark.len());
    if rest.starts_with("--") {
        return (rest.find('\n').unwrap_or(rest.len()), Kind::Comment);
    }
    if rest.starts_with("{-") {
        return (until("-}", 2), Kind::Comment);
    }
    let first = rest.chars().next().expect("a word has a character");
    match first {
        '«' => (until("»", 0), Kind::Name),
        '"' => (text_end(rest), Kind::Text),
        _ if ends_name(first) => (first.len_utf8(), Kind::Mark),
        _ => {
            let end = rest.find(ends_name).unwrap_or(rest.len());
            let kind = if first.is_ascii_digit() { Kind::Number } else { Kind::Name };
            (end, kind)
        }
    }
}

/// The end of a quoted text, its escapes passed over.
fn text_end(rest: &str) -> usize {
    let mut escaped = false;
    for (k, c) in rest.char_indices().skip(1) {
        match c {
            _ if escaped => escaped = false,
            '\\' => escaped = true,
            '"' => return k + 1,
            _ => {}
        }
    }
    rest.len()
}

/// Where a reader of words stands: the next byte, its line from 1, its column from 0.
struct Place {
    at: usize,
    line: usize,
    column: usize,
}

impl Place {
    /// Goes on by the characters of a text.
    fn pass(&mut self, text: &str) {
        self.at += text.len();
        match text.rfind('\n') {
            Some(last) => {
                self.line += text.matches('\n').count();
                self.column = text[last + 1..].chars().count();
            }
            None => self.column += text.chars().count(),
        }
    }

    /// The word of some bytes that begins here, behind those that were found.
    fn word(&self, length: usize, kind: Kind, found: &[Word]) -> Word {
        Word { kind, start: self.at, end: self.at + length, line: self.line, column: self.column, tight: found.last().is_some_and(|w| w.end == self.at) }
    }
}

/// The length of the spaces that a text begins with.
fn spaces(text: &str) -> usize {
    text.find(|c: char| !c.is_whitespace()).unwrap_or(text.len())
}

/// All words of a text, comments among them.
pub fn words(text: &str) -> Vec<Word> {
    let mut place = Place { at: 0, line: 1, column: 0 };
    let mut found: Vec<Word> = Vec::new();
    place.pass(&text[..spaces(text)]);
    while place.at < text.len() {
        let (length, kind) = word_at(&text[place.at..]);
        found.push(place.word(length, kind, &found));
        let end = place.at + length;
        place.pass(&text[place.at..end + spaces(&text[end..])]);
    }
    found
}

/// The words of a file of code: names of letters, digits and `_`; what stands in the braces of a contract, which may follow the name of a clause, is read
/// as the checker's language.
pub fn code_words(text: &str) -> Vec<Word> {
    let mut place = Place { at: 0, line: 1, column: 0 };
    let mut found: Vec<Word> = Vec::new();
    let (mut contract, mut clause) = (false, false);
    place.pass(&text[..spaces(text)]);
    while place.at < text.len() {
        let rest = &text[place.at..];
        let length = if contract && rest.starts_with('{') {
            let inner = braces(rest);
            found.extend(words(&rest[..inner]).into_iter().map(|w| moved(w, &place)));
            (contract, clause) = (false, false);
            inner
        } else {
            let (length, kind) = code_word_at(rest);
            let opens = CONTRACT.contains(&&rest[..length]);
            clause = contract && !opens && !clause && kind == Kind::Name;
            contract = opens || clause;
            found.push(place.word(length, kind, &found));
            length
        };
        let end = place.at + length;
        place.pass(&text[place.at..end + spaces(&text[end..])]);
    }
    found
}

/// A word of a piece of text, where that piece begins at a place.
fn moved(word: Word, place: &Place) -> Word {
    Word {
        start: word.start + place.at,
        end: word.end + place.at,
        line: word.line + place.line - 1,
        column: word.column + if word.line == 1 { place.column } else { 0 },
        ..word
    }
}

/// Words of the code behind which the checker's language stands in braces.
const CONTRACT: [&str; 4] = ["requires", "ensures", "invariant", "decreases"];

/// The length of a text in braces that begins with one.
fn braces(rest: &str) -> usize {
    let mut depth = 0usize;
    for w in words(rest) {
        match w.of(rest) {
            "{" => depth += 1,
            "}" => depth -= 1,
            _ => {}
        }
        if depth == 0 {
            return w.end;
        }
    }
    rest.len()
}

fn code_word_at(rest: &str) -> (usize, Kind) {
    let first = rest.chars().next().expect("a word has a character");
    let named = |c: char| c.is_alphanumeric() || c == '_';
    match first {
        '/' if rest.starts_with("//") => (rest.find('\n').unwrap_or(rest.len()), Kind::Comment),
        '"' => (text_end(rest), Kind::Text),
        _ if named(first) => {
            let kind = if first.is_ascii_digit() { Kind::Number } else { Kind::Name };
            (rest.find(|c| !named(c)).unwrap_or(rest.len()), kind)
        }
        _ => (first.len_utf8(), Kind::Mark),
    }
}

/// A name without the marks of an escaped one.
pub fn plain(name: &str) -> &str {
    name.strip_prefix('«').and_then(|n| n.strip_suffix('»')).unwrap_or(name)
}

/// The parts of an operator's name: `◌≡◌` has `≡`, `◌≡⟨◌⟩◌` has two. A name without places for arguments has none.
pub fn parts(name: &str) -> Vec<&str> {
    if name.starts_with('«') || !name.contains('◌') {
        return Vec::new();
    }
    name.split('◌').filter(|p| !p.is_empty()).collect()
}

#[cfg(test)]
mod tests {
    use super::*;

    fn told(text: &str) -> Vec<(&str, Kind)> {
        words(text).iter().map(|w| (w.of(text), w.kind)).collect()
    }

    #[test]
    fn names_run_to_a_space_or_a_bracket() {
        let read = told("n+n (x.rem) xs' [] «max_len»");
        let names: Vec<&str> = read.iter().map(|r| r.0).collect();
        assert_eq!(names, ["n+n", "(", "x", ".", "rem", ")", "xs'", "[]", "«max_len»"]);
    }

    #[test]
    fn comments_texts_and_numbers_are_told_apart() {
        assert_eq!(
            told("a -- b\n\"c -- d\" 12 {- e\nf -} g"),
            [("a", Kind::Name), ("-- b", Kind::Comment), ("\"c -- d\"", Kind::Text), ("12", Kind::Number), ("{- e\nf -}", Kind::Comment), ("g", Kind::Name)]
        );
    }

    #[test]
    fn places_and_tightness() {
        let text = "ab\n  r.f r .f";
        let all = words(text);
        assert_eq!((all[1].line, all[1].column), (2, 2));
        let tight: Vec<bool> = all.iter().map(|w| w.tight).collect();
        assert_eq!(tight, [false, false, true, true, false, false, true]);
    }

    #[test]
    fn code_and_its_contracts() {
        let text = "pub fn f(x: u8) -> T\n    ensures says { result.a-b ≡ x }\n{ g::h(x) }";
        let names: Vec<&str> = code_words(text).iter().map(|w| w.of(text)).collect();
        assert!(names.contains(&"a-b") && names.contains(&"h") && names.contains(&"says"));
        let last = code_words(text);
        assert_eq!(last.last().map(|w| (w.line, w.column)), Some((3, 10)));
    }

    #[test]
    fn operators_have_parts() {
        assert_eq!(parts("◌≡⟨◌⟩◌"), ["≡⟨", "⟩"]);
        assert!(parts("max_len").is_empty());
        assert!(parts("«a_b»").is_empty());
        assert!(parts("le-trans").is_empty());
    }
}

//! Pieces of the page: escaped text, places to link to, and code with its names as links.

use crate::contents::Book;
use crate::names::Target;
use crate::source::File;
use crate::term::Span;
use crate::walk::{Link, Links};

/// A text with the marks of the page's language escaped.
pub fn escaped(text: &str) -> String {
    text.replace('&', "&amp;").replace('<', "&lt;").replace('>', "&gt;").replace('"', "&quot;")
}

/// A place's name in the page, from a name of the checker: what an address could misread is spelled by number.
pub fn anchor(name: &str) -> String {
    name.chars()
        .map(|c| match c {
            _ if c.is_alphanumeric() || "-_./:".contains(c) => c.to_string(),
            _ => format!("~{:x}", u32::from(c)),
        })
        .collect()
}

/// A text of a document: what stands in backquotes is code.
pub fn marked(text: &str) -> String {
    let mut made = String::new();
    for (n, part) in text.split('`').enumerate() {
        let part = escaped(part);
        made += &if n % 2 == 1 { format!("<code>{part}</code>") } else { part };
    }
    made
}

impl Book<'_> {
    /// A link to a declaration, under some words; where the book does not have it, the words and where it stands.
    pub fn link(&self, decl: usize, words: &str) -> String {
        self.link_titled(decl, words, &self.library().full_name(decl))
    }

    fn link_titled(&self, decl: usize, words: &str, title: &str) -> String {
        let (words, title) = (escaped(words), escaped(title));
        if !self.entries.contains(&decl) && !self.laws.contains(&decl) {
            return format!("<span title=\"{title}\">{words}</span>");
        }
        format!("<a href=\"#{}\" title=\"{title}\">{words}</a>", anchor(&self.library().full_name(decl)))
    }

    /// A link by the declaration's own name.
    pub fn link_named(&self, decl: usize) -> String {
        self.link(decl, &self.library().decls[decl].name)
    }

    /// A link to a call.
    pub fn link_call(&self, name: &str) -> String {
        match self.call(name) {
            Some(_) => format!("<a href=\"#{}\">{}</a>", anchor(&format!("call:{name}")), escaped(name)),
            None => escaped(name),
        }
    }

    /// A link to an edit.
    pub fn link_edit(&self, edit: usize) -> String {
        let name = &self.edits[edit].name;
        format!("<a href=\"#{}\">{}</a>", anchor(&format!("edit:{name}")), escaped(name))
    }

    fn word(&self, word: &str, link: Option<&Link>, own: Option<usize>) -> String {
        let told = escaped(word);
        match link {
            Some(Link::To(Target::Built(k))) => self.built(&self.library().built_name(*k), &told),
            Some(Link::To(target)) if target.decl().is_some() && target.decl() == own => {
                format!("<b>{told}</b>")
            }
            Some(Link::To(Target::Member(d, m))) => {
                let member = &self.library().decls[*d].members[*m].name;
                self.link_titled(*d, word, &format!("{member} of {}", self.library().full_name(*d)))
            }
            Some(Link::To(Target::Decl(d))) => self.link(*d, word),
            Some(Link::Contract(n)) => self.built(crate::names::CONTRACT_WORDS[*n], &told),
            Some(Link::Bound) => format!("<var>{told}</var>"),
            Some(Link::Untold) => format!("<span class=untold>{told}</span>"),
            Some(Link::Lost) => format!("<span class=lost>{told}</span>"),
            None => told,
        }
    }

    fn built(&self, name: &str, told: &str) -> String {
        format!("<a class=w href=\"#{}\">{told}</a>", anchor(&format!("word:{name}")))
    }

    /// Words of a file as code: names are links, comments are set apart, and lines move to the left by `column`.
    pub fn code(&self, file: &File, span: Span, links: &Links, column: usize, own: Option<usize>) -> String {
        let mut made = String::new();
        let mut at = file.words[span.from].start;
        for k in span.from..span.to {
            let word = &file.words[k];
            made += &gap(&file.text[at..word.start], column);
            made += &self.word(file.word(k), links.words.get(&k), own);
            at = word.end;
        }
        lines(&made)
    }
}

/// Lines of code, each a block of its own: what does not fit goes on below, a little to the right.
fn lines(code: &str) -> String {
    let line = |line: &str| match line.len() - line.trim_start_matches(' ').len() {
        0 => format!("<span class=l>{line}</span>"),
        spaces => format!("<span class=l style=\"--n:{spaces}\">{line}</span>"),
    };
    code.split('\n').map(line).collect()
}

/// What stands between two words: spaces and comments.
fn gap(text: &str, column: usize) -> String {
    let mut made = String::new();
    for (n, line) in text.split('\n').enumerate() {
        let line = if n > 0 {
            made.push('\n');
            let spaces = line.len() - line.trim_start_matches(' ').len();
            &line[spaces.min(column)..]
        } else {
            line
        };
        let start = line.find("--").or_else(|| line.find("//"));
        match start {
            Some(k) => made += &format!("{}<i>{}</i>", escaped(&line[..k]), escaped(&line[k..])),
            None => made += &escaped(line),
        }
    }
    made
}

/// Items with commas between them, the first `most` of them, and how many more there are.
pub fn some(items: &[String], most: usize) -> String {
    let shown = items.iter().take(most).cloned().collect::<Vec<_>>().join(", ");
    match items.len().saturating_sub(most) {
        0 => shown,
        more => format!("{shown} and {more} more"),
    }
}

/// A table with a head.
pub fn table(class: &str, head: &[&str], rows: &[Vec<String>]) -> String {
    let cells = |row: &[String], mark: &str| row.iter().map(|c| format!("<{mark}>{c}</{mark}>")).collect::<String>();
    let head: Vec<String> = head.iter().map(|h| h.to_string()).collect();
    let body: String = rows.iter().map(|r| format!("<tr>{}</tr>\n", cells(r, "td"))).collect();
    format!("<table class=\"{class}\"><thead><tr>{}</tr></thead><tbody>\n{body}</tbody></table>\n", cells(&head, "th"))
}

#[cfg(test)]
mod tests {
    use super::*;

    #[test]
    fn texts_are_escaped() {
        assert_eq!(escaped("a < b & \"c\""), "a &lt; b &amp; &quot;c&quot;");
        assert_eq!(marked("see `a<b`"), "see <code>a&lt;b</code>");
    }

    #[test]
    fn places_have_names_that_an_address_can_hold() {
        assert_eq!(anchor("model/Vote.node_vote"), "model/Vote.node_vote");
        assert_eq!(anchor("◌%◌"), "~25cc~25~25cc");
    }

    #[test]
    fn comments_between_words_are_set_apart() {
        assert_eq!(gap("  -- a < b\n    ", 2), "  <i>-- a &lt; b</i>\n  ");
    }

    #[test]
    fn long_lists_end_with_a_number() {
        let items: Vec<String> = ["a", "b", "c"].iter().map(|s| s.to_string()).collect();
        assert_eq!(some(&items, 2), "a, b and 1 more");
        assert_eq!(some(&items, 3), "a, b, c");
    }
}

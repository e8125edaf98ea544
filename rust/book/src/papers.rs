//! Quotations held against the papers, without the papers: of each paper a list is kept that has a number of 12 bits for each of its words, a line for each
//! sentence, and the names of its sections. A quotation is in a paper if the numbers of its words stand there in a row.

use std::path::Path;

/// A paper: its sections, and the numbers of its words.
pub struct Paper {
    pub name: String,
    /// a section's title, and its first sentence
    pub sections: Vec<(String, usize)>,
    pub sentences: usize,
    words: Vec<u16>,
    sentence_of: Vec<usize>,
}

/// Where a quotation stands: the paper, its section, the sentences that it touches.
#[derive(Clone, Debug, PartialEq, Eq, PartialOrd, Ord)]
pub struct Place {
    pub paper: usize,
    pub from: usize,
    pub to: usize,
}

/// The papers that quotations are held against.
pub struct Papers {
    pub papers: Vec<Paper>,
}

/// The words of a text: letters and digits, small.
pub fn words(text: &str) -> Vec<String> {
    text.split(|c: char| !c.is_alphanumeric()).filter(|w| !w.is_empty()).map(str::to_lowercase).collect()
}

/// A word's number: FNV-1a, folded to 12 bits.
pub fn number(word: &str) -> u16 {
    let hash = word.bytes().fold(0x811c_9dc5u32, |h, b| (h ^ u32::from(b)).wrapping_mul(0x0100_0193));
    ((hash ^ (hash >> 12) ^ (hash >> 24)) & 0xfff) as u16
}

/// What is quoted in a comment.
pub fn quotations(note: &str) -> Vec<String> {
    note.split('"').skip(1).step_by(2).map(str::to_string).collect()
}

/// The parts of a quotation that leaves something out: `(..)` or `..`.
fn parts(quotation: &str) -> Vec<Vec<u16>> {
    unmarked(quotation)
        .replace("(..)", "…")
        .replace("..", "…")
        .split('…')
        .map(|part| words(part).iter().map(|w| number(w)).collect::<Vec<u16>>())
        .filter(|part| !part.is_empty())
        .collect()
}

impl Paper {
    /// Reads a paper's list: `# title` begins a section, each other line is a sentence.
    pub fn read(name: &str, told: &str) -> Paper {
        let mut paper = Paper { name: name.to_string(), sections: Vec::new(), sentences: 0, words: Vec::new(), sentence_of: Vec::new() };
        for line in told.lines() {
            if let Some(title) = line.strip_prefix("# ") {
                paper.sections.push((title.to_string(), paper.sentences));
                continue;
            }
            for k in 0..line.len() / 3 {
                let word = u16::from_str_radix(&line[3 * k..3 * k + 3], 16).unwrap_or(0);
                paper.words.push(word);
                paper.sentence_of.push(paper.sentences);
            }
            paper.sentences += 1;
        }
        paper
    }

    /// The section of a sentence.
    pub fn section(&self, sentence: usize) -> &str {
        let before = self.sections.iter().rev();
        before.filter(|s| s.1 <= sentence).map(|s| s.0.as_str()).next().unwrap_or("")
    }

    /// The words where the parts of a quotation stand, one behind the other.
    fn find(&self, parts: &[Vec<u16>]) -> Option<(usize, usize)> {
        let (mut first, mut from) = (None, 0);
        for part in parts {
            let at = (from..=self.words.len().checked_sub(part.len())?).find(|&k| self.words[k..].starts_with(part))?;
            first = first.or(Some(at));
            from = at + part.len();
        }
        Some((first?, from - 1))
    }
}

impl Papers {
    /// Reads the lists in a folder, by name.
    pub fn read(folder: &Path) -> std::io::Result<Papers> {
        let mut names: Vec<_> = std::fs::read_dir(folder)?.flatten().map(|e| e.path()).collect();
        names.sort();
        let mut papers = Vec::new();
        for path in names {
            let name = path.file_stem().unwrap_or_default().to_string_lossy();
            papers.push(Paper::read(&name, &std::fs::read_to_string(&path)?));
        }
        Ok(Papers { papers })
    }

    /// Where a quotation stands, if it is in a paper; the title of a section is one too.
    pub fn find(&self, quotation: &str) -> Option<Place> {
        let parts = parts(quotation);
        let titled = words(quotation);
        for (paper, p) in self.papers.iter().enumerate() {
            if let Some(section) = p.sections.iter().find(|s| words(&s.0) == titled) {
                return Some(Place { paper, from: section.1, to: section.1 });
            }
        }
        self.papers.iter().enumerate().find_map(|(paper, p)| {
            let (first, last) = p.find(&parts)?;
            Some(Place { paper, from: p.sentence_of[first], to: p.sentence_of[last] })
        })
    }

    /// Whether a quotation is the title of a section.
    pub fn is_title(&self, quotation: &str) -> bool {
        let titled = words(quotation);
        self.papers.iter().flat_map(|p| &p.sections).any(|s| words(&s.0) == titled)
    }

    /// A place in words: the paper, and the section.
    pub fn told(&self, place: &Place) -> String {
        let paper = &self.papers[place.paper];
        match (paper.name.as_str(), paper.section(place.from)) {
            ("demands", section) => section.to_string(),
            (name, "") => format!("document {name}"),
            (name, section) => format!("document {name}, {section}"),
        }
    }
}

/// A paper's list, made from its text.
pub fn fingerprint(text: &str) -> String {
    let mut made = String::new();
    for line in text.lines().map(str::trim) {
        if let Some(title) = line.strip_prefix('#') {
            made += &format!("# {}\n", title.trim_start_matches('#').trim());
            continue;
        }
        let (title, line) = titled(line);
        if let Some(title) = title {
            made += &format!("# {title}\n");
        }
        for sentence in sentences(unmarked(line)) {
            let row: String = words(sentence).iter().map(|w| format!("{:03x}", number(w))).collect();
            if !row.is_empty() {
                made += &row;
                made.push('\n');
            }
        }
    }
    made
}

/// A request's title in front of its text: `**W-201 Title.** text`; the title is text too.
fn titled(line: &str) -> (Option<&str>, &str) {
    let title = line.strip_prefix("**").and_then(|rest| rest.split_once(".**"));
    (title.map(|t| t.0), line)
}

/// A line without the mark of a list.
fn unmarked(line: &str) -> &str {
    let line = line.strip_prefix("- ").unwrap_or(line);
    match line.split_once(". ") {
        Some((mark, rest)) if mark.len() == 1 && mark.chars().all(|c| c.is_ascii_digit()) => rest,
        _ => line,
    }
}

/// The sentences of a line: up to a full stop before a capital letter.
fn sentences(line: &str) -> Vec<&str> {
    let mut found = Vec::new();
    let mut from = 0;
    for (k, _) in line.match_indices(". ") {
        let capital = line[k + 2..].chars().next().is_some_and(char::is_uppercase);
        if capital {
            found.push(&line[from..k + 1]);
            from = k + 2;
        }
    }
    found.push(&line[from..]);
    found
}

#[cfg(test)]
mod tests {
    use super::*;

    const TEXT: &str = "# A title\n\nThe node's vote is the *least* sum. It lies between -b and b.\n- 1 bytes end inside a field\n\n**W-201 The top.** Crew leaders talk. Yes and no remain.\n";

    fn papers() -> Papers {
        Papers { papers: vec![Paper::read("01", &fingerprint(TEXT))] }
    }

    #[test]
    fn a_quotation_is_found_with_its_section() {
        let papers = papers();
        let place = papers.find("It lies between -b and b.").expect("it is there");
        assert_eq!((place.from, place.to), (1, 1));
        assert_eq!(papers.told(&place), "document 01, A title");
        let place = papers.find("leaders talk. Yes").expect("over two sentences");
        assert_eq!(papers.told(&place), "document 01, W-201 The top");
    }

    #[test]
    fn parts_stand_in_order() {
        let papers = papers();
        assert!(papers.find("The node's vote (..) sum").is_some());
        assert!(papers.find("sum (..) The node's vote").is_none());
    }

    #[test]
    fn other_words_are_not_found() {
        let papers = papers();
        assert!(papers.find("The node's vote is the greatest sum").is_none());
        assert!(papers.find("bytes end inside a field").is_some());
    }

    #[test]
    fn quotations_of_a_comment() {
        assert_eq!(quotations("W-204: \"one\", and \"two three\" (x)"), ["one", "two three"]);
    }
}

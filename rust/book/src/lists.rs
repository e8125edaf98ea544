//! Lists that are written by hand: blocks of `key: value` lines, with an empty line between two blocks.

/// A block: its keys and values in their order.
#[derive(Default, Clone, Debug)]
pub struct Block {
    fields: Vec<(String, String)>,
}

impl Block {
    /// The value of a key, empty if it is not there.
    pub fn get(&self, key: &str) -> &str {
        self.all(key).next().unwrap_or("")
    }

    /// All values of a key.
    pub fn all<'a>(&'a self, key: &str) -> impl Iterator<Item = &'a str> {
        let key = key.to_string();
        self.fields.iter().filter(move |f| f.0 == key).map(|f| f.1.as_str())
    }

    /// The names in a value, which has commas between them.
    pub fn names(&self, key: &str) -> Vec<&str> {
        self.get(key).split(", ").map(str::trim).filter(|n| !n.is_empty()).collect()
    }
}

/// The blocks of a list; a line that begins with `#` is a comment.
pub fn blocks(told: &str) -> Vec<Block> {
    let mut found = vec![Block::default()];
    for line in told.lines() {
        if line.trim().is_empty() {
            found.push(Block::default());
        } else if let (false, Some((key, value))) = (line.starts_with('#'), line.split_once(':')) {
            let field = (key.trim().to_string(), value.trim().to_string());
            found.last_mut().expect("there is a block").fields.push(field);
        }
    }
    found.retain(|b| !b.fields.is_empty());
    found
}

/// All lists of the book.
pub struct Lists {
    pub demands: Vec<Block>,
    pub refusals: Vec<Block>,
    pub forms: Vec<Block>,
    pub mistakes: Vec<Block>,
    pub sentences: Vec<Block>,
    pub words: Vec<Block>,
    /// what stands in quotation marks and is no quotation
    pub said: Vec<Block>,
}

impl Lists {
    /// Reads the lists of a folder; a block of a request counts where docs/LANDINGS.md has that request.
    pub fn read(folder: &std::path::Path, landings: &str) -> std::io::Result<Lists> {
        let landed = |block: &Block| block.get("request").is_empty() || landings.contains(&format!("## {} ", block.get("request")));
        let list = |name: &str| {
            let told = std::fs::read_to_string(folder.join(name))?;
            Ok::<_, std::io::Error>(blocks(&told).into_iter().filter(landed).collect())
        };
        Ok(Lists {
            demands: list("demands.txt")?,
            refusals: list("refusals.txt")?,
            forms: list("forms.txt")?,
            mistakes: list("mistakes.txt")?,
            sentences: list("sentences.txt")?,
            words: list("words.txt")?,
            said: list("said.txt")?,
        })
    }
}

#[cfg(test)]
mod tests {
    use super::*;

    #[test]
    fn blocks_and_their_names() {
        let read = blocks("# a comment\nof: x\nwords: one: two\nwords: three\n\nof: y\ncalls: a, b\n");
        assert_eq!(read.len(), 2);
        assert_eq!(read[0].all("words").collect::<Vec<_>>(), ["one: two", "three"]);
        assert_eq!(read[1].names("calls"), ["a", "b"]);
        assert_eq!(read[1].get("none"), "");
    }
}

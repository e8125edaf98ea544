//! `include/crew.h` read as far as a program needs that makes its calls: the
//! constants, the structs with the places of their fields, and the calls with their
//! parameters. What the header defines beside the calls (`static inline`) is passed
//! over. Anything else that it does not know is an error.

use std::fmt;

/// What could not be read, and where.
#[derive(Debug, PartialEq, Eq)]
pub struct Unknown(pub String);

impl fmt::Display for Unknown {
    fn fmt(&self, formatter: &mut fmt::Formatter<'_>) -> fmt::Result {
        write!(formatter, "crew.h: {}", self.0)
    }
}

impl std::error::Error for Unknown {}

/// The type of a field or an answer.
#[derive(Clone, Debug, PartialEq, Eq)]
pub enum Type {
    U8,
    I16,
    /// A length, which has eight bytes.
    Size,
    Struct(String),
}

/// A field: how many of its type it has, if it is an array, and where it begins.
#[derive(Clone, Debug, PartialEq, Eq)]
pub struct Field {
    pub name: String,
    pub of: Type,
    pub count: Option<usize>,
    pub offset: usize,
}

#[derive(Clone, Debug, PartialEq, Eq)]
pub struct Struct {
    pub name: String,
    pub fields: Vec<Field>,
    pub size: usize,
    pub align: usize,
}

/// A parameter; a slice is two in C, its pointer and its length.
#[derive(Clone, Debug, PartialEq, Eq)]
pub enum Parameter {
    Desk,
    Number(String),
    Slice {
        name: String,
        of: Type,
        written: bool,
    },
}

#[derive(Clone, Debug, PartialEq, Eq)]
pub struct Call {
    pub name: String,
    pub answer: Type,
    pub parameters: Vec<Parameter>,
}

#[derive(Clone, Debug, Default, PartialEq, Eq)]
pub struct Header {
    pub constants: Vec<(String, usize)>,
    pub structs: Vec<Struct>,
    pub calls: Vec<Call>,
    /// The words of each refusal, by the name of its constant.
    pub texts: Vec<(String, String)>,
}

const DESK: &str = "crew_desk";

impl Header {
    pub fn read(text: &str) -> Result<Header, Unknown> {
        let text = without_comments(text);
        let mut header = Header::default();
        let mut code = String::new();
        for line in plain_lines(&text) {
            match line.strip_prefix("#define ") {
                Some(define) => header.define(define),
                None if line.starts_with('#') => {}
                None => {
                    code.push_str(line);
                    code.push('\n');
                }
            }
        }
        header.texts = texts(&code);
        let words = words(&code);
        let mut rest = &words[..];
        while !rest.is_empty() {
            rest = header.item(rest)?;
        }
        Ok(header)
    }

    pub fn constant(&self, name: &str) -> Option<usize> {
        let found = self.constants.iter().find(|(own, _)| own == name);
        found.map(|(_, number)| *number)
    }

    pub fn structure(&self, name: &str) -> Option<&Struct> {
        self.structs.iter().find(|own| own.name == name)
    }

    /// `MAJOR.MINOR.PATCH`.
    pub fn version(&self) -> Option<String> {
        let part = |name| self.constant(&format!("CREW_VERSION_{name}"));
        let [major, minor, patch] = ["MAJOR", "MINOR", "PATCH"].map(part);
        Some(format!("{}.{}.{}", major?, minor?, patch?))
    }

    /// A constant that is a number; the guard of the header is none.
    fn define(&mut self, define: &str) {
        if let Some((name, number)) = define.split_once(' ') {
            if let Ok(number) = number.trim().parse() {
                self.constants.push((name.to_owned(), number));
            }
        }
    }

    /// One item of the header at the front of the words, and the words behind it.
    fn item<'a>(&mut self, words: &'a [String]) -> Result<&'a [String], Unknown> {
        match at(words, 0) {
            "static" => behind_body(words),
            "enum" => self.names(words),
            "struct" if at(words, 2) == "{" => self.structure_of(words),
            _ => self.call(words),
        }
    }

    /// `enum { NAME = NUMBER, .. };`
    fn names<'a>(&mut self, words: &'a [String]) -> Result<&'a [String], Unknown> {
        let end = place(words, "}")?;
        for name in words[2..end].split(|word| word == ",") {
            let [name, equals, number] = name else {
                return unknown("a name without its number", name);
            };
            let (true, Ok(number)) = (equals == "=", number.parse()) else {
                return unknown("a name without its number", words);
            };
            self.constants.push((name.clone(), number));
        }
        expect(&words[end + 1..], ";")
    }

    /// `struct NAME { TYPE name; TYPE name[SIZE]; .. };`
    fn structure_of<'a>(&mut self, words: &'a [String]) -> Result<&'a [String], Unknown> {
        let end = place(words, "}")?;
        let mut structure = Struct {
            name: words[1].clone(),
            fields: Vec::new(),
            size: 0,
            align: 1,
        };
        let mut rest = &words[3..end];
        while !rest.is_empty() {
            let (of, behind) = self.a_type(rest)?;
            let name = at(behind, 0).to_owned();
            let (count, behind) = self.array(&behind[1..])?;
            rest = expect(behind, ";")?;
            let (size, align) = self.room(&of)?;
            let offset = structure.size.next_multiple_of(align);
            structure.size = offset + size * count.unwrap_or(1);
            structure.align = structure.align.max(align);
            structure.fields.push(Field {
                name,
                of,
                count,
                offset,
            });
        }
        structure.size = structure.size.next_multiple_of(structure.align);
        self.structs.push(structure);
        expect(&words[end + 1..], ";")
    }

    /// `[SIZE]`, if it is there.
    fn array<'a>(&self, words: &'a [String]) -> Result<(Option<usize>, &'a [String]), Unknown> {
        if at(words, 0) != "[" {
            return Ok((None, words));
        }
        let Some(size) = self.constant(at(words, 1)) else {
            return unknown("an array's size that is no constant", words);
        };
        Ok((Some(size), expect(&words[2..], "]")?))
    }

    fn a_type<'a>(&self, words: &'a [String]) -> Result<(Type, &'a [String]), Unknown> {
        let of = match at(words, 0) {
            "uint8_t" => Type::U8,
            "int16_t" => Type::I16,
            "size_t" => Type::Size,
            "struct" => return Ok((Type::Struct(at(words, 1).to_owned()), &words[2..])),
            _ => return unknown("a type", words),
        };
        Ok((of, &words[1..]))
    }

    /// The bytes of a type, and the multiple at which it begins.
    fn room(&self, of: &Type) -> Result<(usize, usize), Unknown> {
        match of {
            Type::U8 => Ok((1, 1)),
            Type::I16 => Ok((2, 2)),
            Type::Size => Ok((8, 8)),
            Type::Struct(name) => match self.structure(name) {
                Some(structure) => Ok((structure.size, structure.align)),
                None => unknown(
                    "a struct that stands further down",
                    std::slice::from_ref(name),
                ),
            },
        }
    }

    /// `TYPE name(PARAMETERS);`
    fn call<'a>(&mut self, words: &'a [String]) -> Result<&'a [String], Unknown> {
        let (answer, rest) = self.a_type(words)?;
        let name = at(rest, 0).to_owned();
        let rest = expect(&rest[1..], "(")?;
        let end = place(rest, ")")?;
        let mut parameters = Vec::new();
        let mut given = &rest[..end];
        if given == ["void"] {
            given = &[];
        }
        while !given.is_empty() {
            let (parameter, behind) = self.parameter(given)?;
            parameters.push(parameter);
            given = match at(behind, 0) {
                "," => &behind[1..],
                _ => behind,
            };
        }
        self.calls.push(Call {
            name,
            answer,
            parameters,
        });
        expect(&rest[end + 1..], ";")
    }

    fn parameter<'a>(&self, words: &'a [String]) -> Result<(Parameter, &'a [String]), Unknown> {
        let (written, words) = match at(words, 0) {
            "const" => (false, &words[1..]),
            _ => (true, words),
        };
        let (of, behind) = self.a_type(words)?;
        if at(behind, 0) == "*" {
            let name = at(behind, 1).to_owned();
            let length = [",", "size_t", &format!("{name}_len")];
            if behind.len() < 5 || behind[2..5] != length {
                return unknown("a pointer without its length", behind);
            }
            return Ok((Parameter::Slice { name, of, written }, &behind[5..]));
        }
        let name = at(behind, 0).to_owned();
        match of {
            Type::U8 => Ok((Parameter::Number(name), &behind[1..])),
            Type::Struct(own) if own == DESK => Ok((Parameter::Desk, &behind[1..])),
            _ => unknown("a parameter", words),
        }
    }
}

fn unknown<T>(what: &str, words: &[String]) -> Result<T, Unknown> {
    let near: Vec<&str> = words.iter().take(8).map(String::as_str).collect();
    Err(Unknown(format!("{what}: {}", near.join(" "))))
}

fn at(words: &[String], place: usize) -> &str {
    words.get(place).map_or("", String::as_str)
}

fn place(words: &[String], word: &str) -> Result<usize, Unknown> {
    match words.iter().position(|own| own == word) {
        Some(place) => Ok(place),
        None => unknown(&format!("no {word}"), words),
    }
}

/// What follows a word that must be there.
fn expect<'a>(words: &'a [String], word: &str) -> Result<&'a [String], Unknown> {
    if at(words, 0) == word {
        Ok(&words[1..])
    } else {
        unknown(&format!("no {word}"), words)
    }
}

/// What follows a function with its body.
fn behind_body(words: &[String]) -> Result<&[String], Unknown> {
    let mut depth = 0;
    for (place, word) in words.iter().enumerate() {
        match word.as_str() {
            "{" => depth += 1,
            "}" if depth == 1 => return Ok(&words[place + 1..]),
            "}" => depth -= 1,
            _ => {}
        }
    }
    unknown("a body without an end", words)
}

/// The words of each refusal: `case NAME: return "words";`
fn texts(code: &str) -> Vec<(String, String)> {
    let lines = code.lines().filter_map(|line| {
        let (name, text) = line
            .trim()
            .strip_prefix("case ")?
            .split_once(": return \"")?;
        let name = name.starts_with("CREW_REFUSED_").then_some(name)?;
        Some((name.to_owned(), text.strip_suffix("\";")?.to_owned()))
    });
    lines.collect()
}

fn without_comments(text: &str) -> String {
    let mut parts = text.split("/*");
    let mut code = parts.next().unwrap_or("").to_owned();
    for part in parts {
        code.push(' ');
        code.push_str(part.split_once("*/").map_or("", |(_, behind)| behind));
    }
    code
}

/// The lines that a C compiler sees, which a C++ compiler has more of.
fn plain_lines(text: &str) -> impl Iterator<Item = &str> {
    let mut inside = false;
    text.lines().filter(move |line| {
        let starts = line.starts_with("#ifdef __cplusplus");
        let ends = inside && line.starts_with("#endif");
        let seen = !inside && !starts;
        inside = (inside || starts) && !ends;
        seen
    })
}

/// Names and numbers, texts, and every other character by itself.
fn words(code: &str) -> Vec<String> {
    let mut words: Vec<String> = Vec::new();
    let mut letters = code.chars().peekable();
    while let Some(letter) = letters.next() {
        if letter.is_whitespace() {
            continue;
        }
        let mut word = String::from(letter);
        let name = |letter: &char| letter.is_ascii_alphanumeric() || *letter == '_';
        if letter == '"' {
            word.extend(letters.by_ref().take_while(|&next| next != '"'));
        } else if name(&letter) {
            while let Some(next) = letters.next_if(name) {
                word.push(next);
            }
        }
        words.push(word);
    }
    words
}

//! The module of the proved calls, for another processor. Of its text the two target
//! lines change, the marks of functions, and the exported functions, which only hand
//! on to the planner's own: how they take and give structs is each system's. No
//! instruction of the planner's own functions changes.
//!
//! The text is read line by line, and every word of it is looked up: the lists below
//! are all that the kit's lowering writes and that means the same on every processor.
//! A line or a word that is not in them stops the retargeting.

use std::collections::BTreeSet;
use std::fmt;

use crate::target::Target;
use crate::words::words;

/// Instructions.
const INSTRUCTIONS: &[&str] = &[
    "add",
    "alloca",
    "and",
    "br",
    "call",
    "extractvalue",
    "getelementptr",
    "icmp",
    "insertvalue",
    "load",
    "mul",
    "or",
    "ptrtoaddr",
    "ret",
    "store",
    "sub",
    "switch",
    "trunc",
    "udiv",
    "unreachable",
    "urem",
    "xor",
    "zext",
];

/// What stands behind them: types, comparisons, and promises that hold of the values
/// whatever the processor.
const WORDS: &[&str] = &[
    "align", "eq", "false", "i1", "i16", "i64", "i8", "inbounds", "label", "ne", "nsw", "null",
    "nuw", "poison", "ptr", "slt", "to", "true", "ule", "ult", "undef", "void", "x",
];

/// The parts of a function's first line.
const SIGNATURE_WORDS: &[&str] = &[
    "define", "internal", "noundef", "zeroext", "ptr", "void", "i1", "i8", "i16", "i64",
];

// Two values together, as `{ ptr, i64 }`, are what a function of the planner's own answers, and every compiler hands them on in its own way.
const MARKS: &[&str] = &[",", "(", ")", "[", "]", "=", "{", "}"];

/// What may be said of a load.
const NOTES: &[&str] = &["!noundef", "!range"];

/// Functions from outside, which the compiler itself provides.
const DECLARED: &[&str] = &[
    "declare void @llvm.memmove.p0.p0.i64(ptr writeonly captures(none), ptr readonly captures(none), i64, i1 immarg) #",
    "declare void @llvm.memset.p0.i64(ptr writeonly captures(none), i8, i64, i1 immarg) #",
    "declare void @llvm.trap() #",
];

/// Marks of functions: the planner's own, and those of the functions from outside.
const ATTRIBUTES: &[&str] = &[
    "{ nounwind \"probe-stack\"=\"inline-asm\" \"stack-probe-size\"=\"3072\" \"target-cpu\"=\"x86-64\" }",
    "{ alwaysinline nounwind \"probe-stack\"=\"inline-asm\" \"stack-probe-size\"=\"3072\" \"target-cpu\"=\"x86-64\" }",
    "{ noinline nounwind \"probe-stack\"=\"inline-asm\" \"stack-probe-size\"=\"3072\" \"target-cpu\"=\"x86-64\" }",
    "{ nocallback nofree nounwind willreturn memory(argmem: readwrite) }",
    "{ nocallback nofree nounwind willreturn memory(argmem: write) }",
    "{ cold noreturn nounwind memory(inaccessiblemem: write) }",
];

const PROCESSOR: &str = " \"target-cpu\"=\"x86-64\"";
const PROBE: &str = " \"probe-stack\"=\"inline-asm\" \"stack-probe-size\"=\"3072\"";

/// How the name of an exported function begins.
const EXPORTED: &str = "crew_";

/// A result of two lengths.
const TWO: &str = "{ i64, i64 }";

/// The line that was not known, counted from 1, and why.
#[derive(Debug, PartialEq, Eq)]
pub struct Stop {
    pub line: usize,
    pub why: String,
}

impl fmt::Display for Stop {
    fn fmt(&self, formatter: &mut fmt::Formatter<'_>) -> fmt::Result {
        write!(formatter, "line {}: {}", self.line, self.why)
    }
}

impl std::error::Error for Stop {}

/// The text of the module for this target. For x86-64 it is read and left as it is.
pub fn retarget(text: &str, target: Target) -> Result<String, Stop> {
    let mut reader = Reader {
        functions: functions(text),
        target,
        place: Place::Outside,
        seen: BTreeSet::new(),
    };
    let mut out = String::with_capacity(text.len());
    let mut last = 0;
    for (number, line) in (1..).zip(text.lines()) {
        let new = reader
            .line(line)
            .map_err(|why| Stop { line: number, why })?;
        out.push_str(&new);
        out.push('\n');
        last = number;
    }
    reader.end().map_err(|why| Stop { line: last, why })?;
    Ok(out)
}

/// The functions that the module defines, which are all that it may call beside those
/// from outside.
fn functions(text: &str) -> BTreeSet<String> {
    let heads = text.lines().filter(|line| line.starts_with("define "));
    let names = heads.filter_map(|line| words(line).into_iter().find(|word| word.starts_with('@')));
    let declared = DECLARED.iter().flat_map(|line| words(line));
    let outside = declared.filter(|word| word.starts_with('@'));
    names.chain(outside).map(str::to_owned).collect()
}

/// Where in the module a line stands.
#[derive(Clone, PartialEq, Eq)]
enum Place {
    Outside,
    /// In one of the planner's own functions.
    Inside,
    /// In the table of a switch.
    Table,
    /// In an exported function that gives its result in this way.
    Exported(Gives),
}

/// What an exported function of the kit gives back.
#[derive(Clone, Copy, Debug, PartialEq, Eq)]
enum Gives {
    /// The first argument, which is where the result is to be written.
    Place,
    /// Two lengths.
    Two,
    Number,
    /// It has given it.
    Given,
}

struct Reader {
    functions: BTreeSet<String>,
    target: Target,
    place: Place,
    /// The target lines that were met.
    seen: BTreeSet<&'static str>,
}

impl Reader {
    fn line(&mut self, line: &str) -> Result<String, String> {
        if line.is_empty() || line.starts_with("; ") {
            return Ok(line.to_owned());
        }
        match self.place.clone() {
            Place::Outside => self.outside(line),
            Place::Table => self.in_table(line),
            Place::Inside if line == "}" => self.leave(line),
            Place::Exported(Gives::Given) if line == "}" => self.leave(line),
            Place::Inside => self.inside(line),
            Place::Exported(gives) => match words(line).first() {
                Some(&"ret") => self.given(line, gives),
                _ => self.exported(line),
            },
        }
    }

    fn end(&self) -> Result<(), String> {
        if self.place != Place::Outside {
            return Err("the module ends inside a function".to_owned());
        }
        match self.seen.len() {
            2 => Ok(()),
            _ => Err("the module does not say what it is for".to_owned()),
        }
    }

    fn leave(&mut self, line: &str) -> Result<String, String> {
        self.place = Place::Outside;
        Ok(line.to_owned())
    }

    /// A line between functions.
    fn outside(&mut self, line: &str) -> Result<String, String> {
        for (start, old, new) in [
            (
                "target datalayout = ",
                Target::X86.layout(),
                self.target.layout(),
            ),
            (
                "target triple = ",
                Target::X86.triple(),
                self.target.triple(),
            ),
        ] {
            if let Some(stated) = line.strip_prefix(start) {
                self.seen.insert(start);
                let is = stated == format!("\"{old}\"");
                return is
                    .then(|| format!("{start}\"{new}\""))
                    .ok_or_else(|| format!("not a module for x86-64 of the kit: {stated}"));
            }
        }
        if line.starts_with("define internal ") {
            return self.own(line);
        }
        if line.starts_with("define ") {
            return self.head(line);
        }
        if let Some((_, said)) = line
            .strip_prefix("attributes #")
            .and_then(|rest| rest.split_once(" = "))
        {
            return self.attributes(line, said);
        }
        let numbered = |start: &&str| line.strip_prefix(*start).is_some_and(is_number);
        let known = line == "source_filename = \"rattle\""
            || DECLARED.iter().any(numbered)
            || is_note(line);
        known
            .then(|| line.to_owned())
            .ok_or_else(|| format!("not known: {line}"))
    }

    /// The marks of functions: that of the processor goes, and where no code probes
    /// the stack its mark too.
    fn attributes(&self, line: &str, said: &str) -> Result<String, String> {
        if !ATTRIBUTES.contains(&said) {
            return Err(format!("marks that are not known: {said}"));
        }
        Ok(match self.target {
            Target::X86 => line.to_owned(),
            Target::Arm | Target::Android => line.replace(PROCESSOR, ""),
            Target::Web => line.replace(PROCESSOR, "").replace(PROBE, ""),
        })
    }

    /// The first line of one of the planner's own functions.
    fn own(&mut self, line: &str) -> Result<String, String> {
        let [.., attributes, "{"] = words(line)[..] else {
            return Err("a function without a body".to_owned());
        };
        let known = |word: &&str| {
            SIGNATURE_WORDS.contains(word)
                || MARKS.contains(word)
                || is_named(word, "%@")
                || *word == attributes
                || *word == "{"
        };
        self.all(line, known)?;
        self.place = Place::Inside;
        Ok(line.to_owned())
    }

    fn all(&self, line: &str, known: impl Fn(&&str) -> bool) -> Result<(), String> {
        match words(line).iter().find(|word| !known(word)) {
            Some(word) => Err(format!("not known: {word} in {line}")),
            None => Ok(()),
        }
    }

    /// A line of one of the planner's own functions: a label, or an instruction.
    fn inside(&mut self, line: &str) -> Result<String, String> {
        if !line.starts_with(' ') {
            return label(line);
        }
        let words = words(line);
        let instruction = match words[..] {
            [name, "=", instruction, ..] if is_named(name, "%") => instruction,
            [instruction, ..] => instruction,
            [] => "",
        };
        if !INSTRUCTIONS.contains(&instruction) {
            return Err(format!("an instruction that is not known: {line}"));
        }
        let known = |word: &&str| {
            *word == instruction
                || WORDS.contains(word)
                || MARKS.contains(word)
                || NOTES.contains(word)
                || is_named(word, "%")
                || word.strip_prefix('!').is_some_and(is_number)
                || word.strip_prefix('-').map_or(is_number(word), is_number)
                || self.functions.contains(*word)
        };
        self.all(line, known)?;
        // an address of 32 bits is widened, and `ptrtoaddr` takes the width of addresses alone
        if instruction == "ptrtoaddr" && self.target == Target::Web {
            return Ok(line.replace(" ptrtoaddr ", " ptrtoint "));
        }
        if instruction == "switch" && words.last() == Some(&"[") {
            self.place = Place::Table;
        }
        Ok(line.to_owned())
    }

    fn in_table(&mut self, line: &str) -> Result<String, String> {
        match words(line)[..] {
            ["]"] => self.place = Place::Inside,
            ["i8" | "i16" | "i64", number, ",", "label", to]
                if is_number(number) && is_named(to, "%") => {}
            _ => return Err(format!("not known in a switch: {line}")),
        }
        Ok(line.to_owned())
    }

    /// The first line of an exported function, as the target's C compiler has it.
    fn head(&mut self, line: &str) -> Result<String, String> {
        let convention = self.target.convention();
        let (gives, start) = [
            (Gives::Place, "define noundef ptr @"),
            (Gives::Two, "define { i64, i64 } @"),
            (Gives::Number, "define noundef i8 @"),
        ]
        .into_iter()
        .find(|(_, start)| line.starts_with(start))
        .ok_or_else(|| format!("an exported function that gives something else: {line}"))?;
        let (name, rest) = line[start.len()..]
            .split_once('(')
            .filter(|(name, _)| name.starts_with(EXPORTED))
            .ok_or_else(|| format!("an exported function with another name: {line}"))?;
        let (arguments, mark) = rest
            .rsplit_once(") #")
            .filter(|(_, mark)| mark.strip_suffix(" {").is_some_and(is_number))
            .ok_or_else(|| format!("an exported function with other marks: {line}"))?;
        let mut taken = arguments
            .split(", ")
            .enumerate()
            .map(|(place, argument)| taken(argument, place, self.target))
            .collect::<Result<Vec<String>, String>>()?;
        self.place = Place::Exported(gives);
        if self.target == Target::X86 {
            return Ok(line.to_owned());
        }
        let result = match gives {
            Gives::Place => {
                if taken[0] != "ptr noundef %a0" {
                    return Err(format!("the result has no place: {line}"));
                }
                taken[0] = marked("%a0");
                "void"
            }
            Gives::Two if !convention.two_lengths => {
                taken.insert(0, marked("%place"));
                "void"
            }
            Gives::Two => TWO,
            _ if convention.cleared => "noundef zeroext i8",
            _ => "noundef i8",
        };
        Ok(format!(
            "define {result} @{name}({}) #{mark}",
            taken.join(", ")
        ))
    }

    /// A line of an exported function before its last: what it hands on.
    fn exported(&mut self, line: &str) -> Result<String, String> {
        if words(line) == ["start", ":"] {
            return Ok(line.to_owned());
        }
        // the two lengths as one value, which no other function has
        let pair = format!(" = load {TWO}, ptr ");
        let plain = line.replace(&pair, " = load i64, ptr ");
        // a pointer that is null for no bytes is replaced by one that is not
        let [name, "=", "alloca" | "extractvalue" | "getelementptr" | "icmp" | "insertvalue" | "zext" | "mul"
        | "load" | "call", ..] = words(&plain)[..]
        else {
            let ["store" | "call", ..] = words(&plain)[..] else {
                return Err(format!(
                    "an exported function does more than hand on: {line}"
                ));
            };
            self.inside(&plain)?;
            return Ok(line.to_owned());
        };
        if name == "%place" {
            return Err("the name %place is taken".to_owned());
        }
        let place = self.place.clone();
        self.inside(&plain)?;
        self.place = place;
        Ok(line.to_owned())
    }

    /// What an exported function gives, as the target's C compiler has it.
    fn given(&mut self, line: &str, gives: Gives) -> Result<String, String> {
        self.place = Place::Exported(Gives::Given);
        let convention = self.target.convention();
        let given = |start: &str| {
            let value = line.strip_prefix(start)?;
            is_named(value, "%").then_some(value)
        };
        let two = format!("  ret {TWO} ");
        let out = match gives {
            Gives::Place if line == "  ret ptr %a0" => match convention.marked_place {
                true => Some("  ret void".to_owned()),
                false => Some(line.to_owned()),
            },
            Gives::Two => given(&two).map(|value| match convention.two_lengths {
                true => line.to_owned(),
                false => format!("  store {TWO} {value}, ptr %place, align 8\n  ret void"),
            }),
            Gives::Number => given("  ret i8 ").map(|_| line.to_owned()),
            _ => None,
        };
        out.ok_or_else(|| format!("an exported function that ends otherwise: {line}"))
    }
}

/// An argument of an exported function.
fn taken(argument: &str, place: usize, target: Target) -> Result<String, String> {
    let convention = target.convention();
    let name = format!("%a{place}");
    let of = argument
        .strip_suffix(&name)
        .ok_or_else(|| format!("an argument with another name: {argument}"))?;
    match of {
        "ptr noundef " | "i64 noundef " => Ok(argument.to_owned()),
        "i8 noundef " if convention.cleared => Ok(format!("i8 noundef zeroext {name}")),
        "i8 noundef " => Ok(argument.to_owned()),
        _ => {
            let size = of
                .strip_prefix("ptr noundef byval([")
                .and_then(|rest| rest.strip_suffix(" x i8]) align 8 "));
            match size {
                Some(size) if is_number(size) && convention.by_value => Ok(argument.to_owned()),
                Some(size) if is_number(size) => Ok(format!("ptr noundef {name}")),
                _ => Err(format!("an argument that is not known: {argument}")),
            }
        }
    }
}

/// The place of a result, marked as such.
fn marked(name: &str) -> String {
    format!("ptr noundef sret(i8) align 8 {name}")
}

fn label(line: &str) -> Result<String, String> {
    let [name, ":"] = words(line)[..] else {
        return Err(format!("not known: {line}"));
    };
    let plain = name
        .chars()
        .all(|letter| letter.is_ascii_alphanumeric() || "._".contains(letter));
    plain
        .then(|| line.to_owned())
        .ok_or_else(|| format!("a label: {line}"))
}

/// What the module says of itself, and the notes that its instructions cite.
fn is_note(line: &str) -> bool {
    let Some((name, said)) = line.split_once(" = ") else {
        return false;
    };
    match name {
        "!llvm.ident" => said == "!{!0}",
        "!0" => said.starts_with("!{!\"rattle logic=") && said.ends_with("\"}"),
        "!1" => said == "!{}",
        "!2" => said == "!{i8 0, i8 2}",
        _ => false,
    }
}

fn is_number(word: &str) -> bool {
    !word.is_empty() && word.bytes().all(|byte| byte.is_ascii_digit())
}

/// A name behind one of these marks.
fn is_named(word: &str, marks: &str) -> bool {
    word.len() > 1 && word.starts_with(|mark| marks.contains(mark))
}

//! The header told to other languages: as JSON, for those that look up a call's
//! parameters and a struct's fields while they run; as C, a function for each call
//! that takes its slices and gives its numbers in one form, for those that need code;
//! and as a C file that names every call, for the comparison of signatures.

use std::fmt::Write;

use crate::header::{Call, Header, Parameter, Type};

/// The fields of an answer that are numbers, with where to find each, the desk's left
/// out and those of structs inside named by themselves.
fn numbers(header: &Header, answer: &Type) -> Vec<(String, usize, Type)> {
    let Type::Struct(name) = answer else {
        return vec![("answer".to_owned(), 0, answer.clone())];
    };
    let Some(structure) = header.structure(name) else {
        return Vec::new();
    };
    let mut found = Vec::new();
    for field in &structure.fields {
        match &field.of {
            Type::Struct(inner) if inner == "crew_desk" => {}
            of @ Type::Struct(_) => {
                let inner = numbers(header, of).into_iter();
                found.extend(inner.map(|(name, offset, of)| (name, field.offset + offset, of)));
            }
            of => found.push((field.name.clone(), field.offset, of.clone())),
        }
    }
    found
}

fn has_desk(call: &Call) -> bool {
    call.parameters.contains(&Parameter::Desk)
}

/// The size of an answer: of the struct, or of the number.
fn size(header: &Header, of: &Type) -> usize {
    match of {
        Type::U8 => 1,
        Type::I16 => 2,
        Type::Size => 8,
        Type::Struct(name) => header.structure(name).map_or(0, |structure| structure.size),
    }
}

fn kind(of: &Type) -> &'static str {
    match of {
        Type::U8 => "u8",
        Type::I16 => "i16",
        Type::Size => "size",
        Type::Struct(_) => "struct",
    }
}

/// A text in quotation marks; the header's texts need no other care.
fn quoted(text: &str) -> String {
    format!("\"{}\"", text.replace('\\', "\\\\").replace('"', "\\\""))
}

fn list(parts: impl IntoIterator<Item = String>) -> String {
    parts.into_iter().collect::<Vec<String>>().join(", ")
}

/// The header as JSON.
pub fn json(header: &Header) -> String {
    let mut out = String::from("{\n");
    let version = header.version().unwrap_or_default();
    let _ = writeln!(out, "  \"version\": {},", quoted(&version));
    let _ = writeln!(
        out,
        "  \"desk\": {},",
        size(header, &Type::Struct("crew_desk".to_owned()))
    );
    let constants = header.constants.iter();
    let constants = constants.map(|(name, number)| format!("    {}: {number}", quoted(name)));
    let _ = writeln!(
        out,
        "  \"constants\": {{\n{}\n  }},",
        constants.collect::<Vec<_>>().join(",\n")
    );
    let texts = header.texts.iter().filter_map(|(name, text)| {
        let number = header.constant(name)?;
        Some(format!("    \"{number}\": {}", quoted(text)))
    });
    let _ = writeln!(
        out,
        "  \"refusals\": {{\n{}\n  }},",
        texts.collect::<Vec<_>>().join(",\n")
    );
    let calls = header.calls.iter().map(|call| call_json(header, call));
    let _ = writeln!(
        out,
        "  \"calls\": {{\n{}\n  }}",
        calls.collect::<Vec<_>>().join(",\n")
    );
    out.push_str("}\n");
    out
}

fn call_json(header: &Header, call: &Call) -> String {
    let parameters = call.parameters.iter().map(|parameter| match parameter {
        Parameter::Desk => "{\"is\": \"desk\"}".to_owned(),
        Parameter::Number(name) => format!("{{\"is\": \"number\", \"name\": {}}}", quoted(name)),
        Parameter::Slice { name, of, written } => format!(
            "{{\"is\": \"{}\", \"name\": {}, \"size\": {}}}",
            if *written { "written" } else { "read" },
            quoted(name),
            size(header, of)
        ),
    });
    let numbers = numbers(header, &call.answer);
    let numbers = numbers.iter().map(|(name, offset, of)| {
        format!(
            "{{\"name\": {}, \"is\": \"{}\", \"at\": {offset}}}",
            quoted(name),
            kind(of)
        )
    });
    format!(
        "    {}: {{\"answer\": \"{}\", \"bytes\": {}, \"parameters\": [{}], \"numbers\": [{}]}}",
        quoted(&call.name),
        kind(&call.answer),
        size(header, &call.answer),
        list(parameters),
        list(numbers)
    )
}

/// Every call by its number, in one form: a desk or none, a number or none, slices in
/// their order; the answer's numbers in theirs.
pub fn in_one_form(header: &Header) -> String {
    let mut out = String::from(
        "/* Made of crew.h: every call in one form. The names of the calls, of their slices and of their numbers are in the same order. */\n\
         #include <crew.h>\n\n\
         struct crew_slice {\n    uint8_t *bytes;\n    size_t length;\n};\n\n\
         struct crew_form {\n    const char *name;\n    const char *numbers; /* with a space behind each */\n    size_t slices;\n    const char *written; /* a letter a slice: w or r */\n};\n\n\
         static const struct crew_form crew_forms[] = {\n",
    );
    for call in &header.calls {
        let numbers = numbers(header, &call.answer);
        let names: String = numbers
            .iter()
            .map(|(name, _, _)| format!("{name} "))
            .collect();
        let written: String = call.parameters.iter().filter_map(letter).collect();
        let _ = writeln!(
            out,
            "    {{\"{}\", \"{names}\", {}, \"{written}\"}},",
            call.name,
            written.len()
        );
    }
    out.push_str("};\n\nenum { CREW_FORMS = sizeof crew_forms / sizeof crew_forms[0] };\n\n");
    out.push_str(
        "/* makes a call, and gives how many numbers its answer has */\n\
         static inline size_t crew_in_one_form(size_t call, struct crew_desk *desk, uint8_t number, struct crew_slice *slice, int64_t *numbers) {\n    \
         (void)number;\n    switch (call) {\n",
    );
    for (place, call) in header.calls.iter().enumerate() {
        let _ = write!(out, "    case {place}: {{\n{}    }}\n", body(header, call));
    }
    out.push_str("    default: return 0;\n    }\n}\n");
    out
}

fn letter(parameter: &Parameter) -> Option<char> {
    match parameter {
        Parameter::Slice { written: true, .. } => Some('w'),
        Parameter::Slice { .. } => Some('r'),
        _ => None,
    }
}

/// The statements that make one call.
fn body(header: &Header, call: &Call) -> String {
    let mut slice = 0;
    let arguments = call.parameters.iter().map(|parameter| match parameter {
        Parameter::Desk => "*desk".to_owned(),
        Parameter::Number(_) => "number".to_owned(),
        Parameter::Slice { of, .. } => {
            let place = slice;
            slice += 1;
            match of {
                Type::Struct(name) => format!(
                    "(struct {name} *)(void *)slice[{place}].bytes, slice[{place}].length / sizeof(struct {name})"
                ),
                _ => format!("slice[{place}].bytes, slice[{place}].length"),
            }
        }
    });
    let arguments = list(arguments);
    let name = &call.name;
    let Type::Struct(answer) = &call.answer else {
        return format!("        numbers[0] = {name}({arguments});\n        return 1;\n");
    };
    let mut out = format!("        struct {answer} answer = {name}({arguments});\n");
    if answer == "crew_desk" {
        out.push_str("        *desk = answer;\n        return 0;\n");
        return out;
    }
    if has_desk(call) {
        out.push_str("        *desk = answer.desk;\n");
    }
    let fields = fields(header, answer);
    for (place, field) in fields.iter().enumerate() {
        let _ = writeln!(out, "        numbers[{place}] = (int64_t)answer.{field};");
    }
    let _ = writeln!(out, "        return {};", fields.len());
    out
}

/// The ways to the numbers of an answer, as C writes them.
fn fields(header: &Header, answer: &str) -> Vec<String> {
    let Some(structure) = header.structure(answer) else {
        return Vec::new();
    };
    let mut ways = Vec::new();
    for field in &structure.fields {
        match &field.of {
            Type::Struct(inner) if inner == "crew_desk" => {}
            Type::Struct(inner) => {
                let inner = self::fields(header, inner).into_iter();
                ways.extend(inner.map(|way| format!("{}.{way}", field.name)));
            }
            _ => ways.push(field.name.clone()),
        }
    }
    ways
}

/// A C file that names every call, so that a compiler tells how it would make it.
pub fn naming(header: &Header) -> String {
    let names = header
        .calls
        .iter()
        .map(|call| format!("(void *){}", call.name));
    format!("#include <crew.h>\nvoid *calls[] = {{{}}};\n", list(names))
}

//! Modules of JavaScript put into one script. Each becomes a function that is called
//! at once and hands out what the module exports, in an order in which what is
//! imported stands before; so names of one module are not seen in another.
//!
//! The modules keep to a plain form, and what is not of that form is a problem:
//! `import { a, b as c } from './file.mjs';` at the start of a line, and `export` before
//! a const, a function or a class that is declared at the start of a line.

use std::fmt::Write;

/// One module as it is written.
struct Module {
    name: String,
    /// The names taken from other modules, with the modules.
    imports: Vec<(String, String)>,
    exports: Vec<String>,
    body: String,
}

/// The script of a module and of all that it imports; `read` gives a module's text.
pub fn bundled(
    name: &str,
    read: &dyn Fn(&str) -> Result<String, String>,
) -> Result<String, String> {
    let mut order = Vec::new();
    visit(name, read, &mut order, &mut Vec::new())?;
    let mut script = String::new();
    for module in &order {
        write_module(&mut script, module);
    }
    Ok(script)
}

/// Puts a module behind all that it imports; `open` are those that wait for it.
fn visit(
    name: &str,
    read: &dyn Fn(&str) -> Result<String, String>,
    order: &mut Vec<Module>,
    open: &mut Vec<String>,
) -> Result<(), String> {
    if order.iter().any(|module| module.name == name) {
        return Ok(());
    }
    if open.iter().any(|waiting| waiting == name) {
        return Err(format!("{name} imports itself, by {}", open.join(", ")));
    }
    open.push(name.to_owned());
    let module = parse(name, &read(name)?)?;
    for (from, _) in &module.imports {
        visit(from, read, order, open)?;
    }
    open.pop();
    order.push(module);
    Ok(())
}

fn parse(name: &str, text: &str) -> Result<Module, String> {
    let mut module = Module {
        name: name.to_owned(),
        imports: Vec::new(),
        exports: Vec::new(),
        body: String::new(),
    };
    for line in text.lines() {
        let problem = || format!("{name}: this form is not known: {line}");
        if line.starts_with("import") {
            module.imports.push(import(line).ok_or_else(problem)?);
        } else if let Some(declared) = line.strip_prefix("export ") {
            module.exports.push(export(declared).ok_or_else(problem)?);
            let _ = writeln!(module.body, "{declared}");
        } else {
            let _ = writeln!(module.body, "{line}");
        }
    }
    Ok(module)
}

/// The module of an import's line, and the names in its brackets.
fn import(line: &str) -> Option<(String, String)> {
    let (names, from) = line.strip_prefix("import {")?.split_once("} from './")?;
    let from = from.strip_suffix("';")?;
    Some((from.to_owned(), names.trim().replace(" as ", ": ")))
}

/// The name that a line declares.
fn export(declared: &str) -> Option<String> {
    let forms = ["const ", "function ", "async function ", "class "];
    let rest = forms.iter().find_map(|form| declared.strip_prefix(form))?;
    let name: String = rest
        .chars()
        .take_while(|letter| letter.is_alphanumeric() || "_$".contains(*letter))
        .collect();
    (!name.is_empty()).then_some(name)
}

/// The name under which a module's exports are found.
fn variable(name: &str) -> String {
    let plain = |letter: char| {
        if letter.is_ascii_alphanumeric() {
            letter
        } else {
            '_'
        }
    };
    format!("from_{}", name.chars().map(plain).collect::<String>())
}

fn write_module(script: &mut String, module: &Module) {
    let _ = writeln!(script, "const {} = (() => {{", variable(&module.name));
    for (from, names) in &module.imports {
        let _ = writeln!(script, "const {{ {names} }} = {};", variable(from));
    }
    script.push_str(&module.body);
    let _ = writeln!(script, "return {{ {} }};", module.exports.join(", "));
    script.push_str("})();\n");
}

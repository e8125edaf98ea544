//! A text with places for parts: `{{name}}`.

/// The text with each of the parts in its place. Every part has a place, and every
/// place a part; what a part has in it is left alone.
pub fn filled(text: &str, parts: &[(&str, String)]) -> Result<String, String> {
    let mut filled = String::new();
    let mut rest = text;
    let mut used = vec![false; parts.len()];
    while let Some((before, behind)) = rest.split_once("{{") {
        let (name, behind) = behind.split_once("}}").ok_or("'{{' is not closed")?;
        filled.push_str(before);
        match parts.iter().position(|(part, _)| *part == name) {
            Some(at) => {
                used[at] = true;
                filled.push_str(&parts[at].1);
            }
            // a place that is spoken of, not one to be filled
            None if name == ".." => filled.push_str("{{..}}"),
            None => return Err(format!("there is no part '{name}'")),
        }
        rest = behind;
    }
    filled.push_str(rest);
    match used.iter().position(|used| !used) {
        Some(at) => Err(format!("'{}' has no place", parts[at].0)),
        None => Ok(filled),
    }
}

//! The format of a file of settings. It is read by C too: the cases of `clients/tests/conf` say
//! what it means, and each reader passes them.
//!
//! Lines end with a line feed, before which a carriage return may stand. Blanks are spaces and
//! tabs.
//! - A line of blanks, and one whose first other character is `#` or `;`, says nothing.
//! - `[NAME]` begins a section. What stands above the first one is of all sections.
//! - `NAME = VALUE`: the name has the letters a to z, digits and `_`; the value is the rest of the
//!   line without the blanks around it. `#`, `;`, `=`, `$`, `%` and `\` within it stand for
//!   themselves. One between two `"` is what stands between them, with its blanks.
//!
//! All else is refused: a name or a section that comes twice, an empty name, a `"` with no end,
//! bytes that are not UTF-8, NUL. A byte order mark may stand before all.
use zeroize::Zeroizing;

/// What a line is that says something.
#[derive(PartialEq, Eq)]
pub struct Entry {
    /// The number of the line.
    pub line: usize,
    pub name: String,
    pub value: Zeroizing<String>,
}

/// A section: its name, which is `None` of what stands above the first, and its entries.
#[derive(PartialEq, Eq)]
pub struct Section {
    pub name: Option<String>,
    pub entries: Vec<Entry>,
}

/// Why a file is refused: the number of the line, and what is wrong there. It shows no value.
#[derive(Debug, PartialEq, Eq)]
pub struct Wrong {
    pub line: usize,
    pub text: String,
}

const BLANKS: [char; 2] = [' ', '\t'];

fn is_name(text: &str) -> bool {
    let is_of_name = |it: char| it.is_ascii_lowercase() || it.is_ascii_digit() || it == '_';
    !text.is_empty() && text.chars().all(is_of_name)
}

fn value_of(text: &str) -> Result<&str, String> {
    let Some(rest) = text.strip_prefix('"') else { return Ok(text) };
    let inner = rest.strip_suffix('"').ok_or("a value that begins with \" ends with one")?;
    if inner.contains('"') {
        return Err("between two \" stands no third".into());
    }
    Ok(inner)
}

fn section_of(rest: &str) -> Result<&str, String> {
    let name = rest.strip_suffix(']').ok_or("a section is [NAME], and nothing behind it")?;
    let name = name.trim_matches(BLANKS);
    if name.is_empty() || name.contains(['[', ']']) {
        return Err("a section has a name, without [ and ]".into());
    }
    Ok(name)
}

fn read_line(sections: &mut Vec<Section>, number: usize, line: &str) -> Result<(), String> {
    let line = line.trim_matches(BLANKS);
    if line.is_empty() || line.starts_with(['#', ';']) {
        return Ok(());
    }
    if let Some(rest) = line.strip_prefix('[') {
        let name = section_of(rest)?;
        if sections.iter().any(|it| it.name.as_deref() == Some(name)) {
            return Err(format!("the section {name} comes twice"));
        }
        sections.push(Section { name: Some(name.into()), entries: Vec::new() });
        return Ok(());
    }
    let (name, value) = line.split_once('=').ok_or("this is no NAME = VALUE and no [SECTION]")?;
    let name = name.trim_matches(BLANKS);
    if !is_name(name) {
        return Err("a name has the letters a to z, digits and _".into());
    }
    let value = value_of(value.trim_matches(BLANKS))?;
    let Some(section) = sections.last_mut() else { return Err("there is no section".into()) };
    if section.entries.iter().any(|it| it.name == name) {
        return Err(format!("{name} comes twice"));
    }
    let value = Zeroizing::new(value.to_string());
    section.entries.push(Entry { line: number, name: name.into(), value });
    Ok(())
}

/// The sections of a file, the first of which is what stands above all others.
pub fn read(bytes: &[u8]) -> Result<Vec<Section>, Wrong> {
    let mut sections = vec![Section { name: None, entries: Vec::new() }];
    for (at, line) in bytes.split(|byte| *byte == b'\n').enumerate() {
        let wrong = |text: String| Wrong { line: at + 1, text };
        let line = std::str::from_utf8(line).map_err(|_| wrong("this is not UTF-8".into()))?;
        let line = line.strip_suffix('\r').unwrap_or(line);
        let line = if at == 0 { line.strip_prefix('\u{FEFF}').unwrap_or(line) } else { line };
        if line.contains(['\0', '\r']) {
            return Err(wrong("a control character stands here".into()));
        }
        read_line(&mut sections, at + 1, line).map_err(wrong)?;
    }
    Ok(sections)
}

#[cfg(test)]
mod tests {
    use super::*;
    use std::path::Path;

    /// What a file means, as `NAME.read` says it: a line for each value, or the number of the line
    /// that is refused.
    fn said(bytes: &[u8]) -> String {
        let sections = match read(bytes) {
            Ok(sections) => sections,
            Err(wrong) => return format!("refused {}\n", wrong.line),
        };
        let mut text = String::new();
        for section in sections {
            if let Some(name) = &section.name {
                text += &format!("[{name}]\n");
            }
            for entry in &section.entries {
                text += &format!("{}={}\n", entry.name, entry.value.as_str());
            }
        }
        text
    }

    #[test]
    fn the_cases_of_all_readers() {
        let folder = Path::new(env!("CARGO_MANIFEST_DIR")).join("../tests/conf");
        let mut count = 0;
        for file in std::fs::read_dir(&folder).unwrap() {
            let path = file.unwrap().path();
            if path.extension().is_some_and(|it| it == "conf") {
                let wanted = std::fs::read_to_string(path.with_extension("read")).unwrap();
                assert_eq!(said(&std::fs::read(&path).unwrap()), wanted, "{}", path.display());
                count += 1;
            }
        }
        assert!(count > 20, "{count} cases");
    }
}

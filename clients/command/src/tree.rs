//! A message as a tree. `kmip_ttlv`, which is proved, reads it: no code of the protocol stands
//! here.
use crate::failure::{plain, setting, Failure};
use metsuwan::Json;
use std::io::Write;
use std::path::PathBuf;
use std::process::{Command, Stdio};

/// What a tree shows of the values.
#[derive(Clone, Copy, PartialEq, Eq)]
pub enum Show {
    /// Those that are not secret.
    Values,
    /// None: tags, types and nesting alone.
    Skeleton,
}

/// Tags whose values are not shown.
const SECRET: [&str; 4] = ["Password", "KeyMaterial", "RandomSeed", "Salt"];
/// The most letters of a value that are shown.
const MOST: usize = 64;

/// `kmip_ttlv`: that of KMIP_TTLV, else beside this program, else on the path.
fn reader() -> PathBuf {
    if let Some(path) = std::env::var_os("KMIP_TTLV").filter(|it| !it.is_empty()) {
        return path.into();
    }
    let own = std::env::current_exe().ok().map(|it| it.with_file_name("kmip_ttlv"));
    own.filter(|it| it.is_file()).unwrap_or_else(|| "kmip_ttlv".into())
}

/// Does this, while a pipe that nobody reads is an error and ends the program by no signal.
fn without_signal<R>(act: impl FnOnce() -> R) -> R {
    // SAFETY: it sets what SIGPIPE does, and no other thread does.
    let before = unsafe { libc::signal(libc::SIGPIPE, libc::SIG_IGN) };
    let made = act();
    // SAFETY: it sets it to what it was.
    unsafe { libc::signal(libc::SIGPIPE, before) };
    made
}

/// The item that these bytes are, or hex digits.
fn item_of(message: &[u8]) -> Result<Json, Failure> {
    let program = reader();
    let wrong = |error: std::io::Error| {
        let text = "kmip_ttlv, which is installed beside kmip, shows messages";
        setting(format!("{text}: {}: {error}", program.display()))
    };
    let mut child = Command::new(&program)
        .arg("decode")
        .stdin(Stdio::piped())
        .stdout(Stdio::piped())
        .stderr(Stdio::null())
        .spawn()
        .map_err(wrong)?;
    let written =
        child.stdin.take().map_or(Ok(()), |mut input| without_signal(|| input.write_all(message)));
    let out = child.wait_with_output().map_err(wrong)?;
    written.map_err(wrong)?;
    let text = String::from_utf8_lossy(&out.stdout);
    let none = || setting("kmip_ttlv cannot read the message");
    Json::parse(text.trim_end()).filter(|_| out.status.success()).ok_or_else(none)
}

/// The tree of a message: a line for each item.
pub fn tree(message: &[u8], show: Show, is_secret: bool) -> Result<String, Failure> {
    let mut text = String::new();
    branch(&mut text, &item_of(message)?, 0, show, is_secret);
    Ok(text)
}

fn branch(text: &mut String, item: &Json, level: usize, show: Show, is_secret: bool) {
    let part = |name| item.member(name).and_then(Json::as_text).unwrap_or("");
    let (tag, kind) = (plain(part("tag")), plain(part("type")));
    let front = "  ".repeat(level);
    match item.member("value") {
        Some(Json::List(items)) => {
            *text += &format!("{front}{tag}\n");
            for item in items {
                branch(text, item, level + 1, show, is_secret);
            }
        }
        _ if show == Show::Skeleton => *text += &format!("{front}{tag} ({kind})\n"),
        Some(value) => {
            *text += &format!("{front}{tag} ({kind}): {}\n", shown(&tag, value, is_secret))
        }
        None => *text += &format!("{front}{tag} ({kind})\n"),
    }
}

fn shown(tag: &str, value: &Json, is_secret: bool) -> String {
    // (the identifier is another one in each request)
    if tag == "UniqueBatchItemID" {
        return "at random".into();
    }
    if SECRET.contains(&tag) || (is_secret && tag == "Data") {
        return "not shown".into();
    }
    let value = value.as_text().map_or_else(|| value.to_string(), plain);
    let count = value.chars().count();
    let short: String = value.chars().take(MOST).collect();
    if count > MOST {
        format!("{short}.. ({count} letters)")
    } else {
        short
    }
}

#[cfg(test)]
mod tests {
    use super::*;

    #[test]
    fn secret_values_are_not_shown() {
        let text = r#"{"tag":"RequestMessage","value":[
            {"tag":"Password","type":"TextString","value":"5EC4E7"},
            {"tag":"UniqueBatchItemID","type":"ByteString","value":"0011"},
            {"tag":"Data","type":"ByteString","value":"68656C6C6F"},
            {"tag":"KeyMaterial","type":"ByteString","value":"5EC4E7"},
            {"tag":"Count","type":"Integer","value":1}]}"#;
        let item = Json::parse(text).unwrap();
        let mut made = String::new();
        branch(&mut made, &item, 0, Show::Values, false);
        assert_eq!(
            made,
            "RequestMessage\n  Password (TextString): not shown\n  UniqueBatchItemID (ByteString): \
             at random\n  Data (ByteString): 68656C6C6F\n  KeyMaterial (ByteString): not shown\n  \
             Count (Integer): 1\n"
        );
        let mut made = String::new();
        branch(&mut made, &item, 0, Show::Values, true);
        assert!(made.contains("Data (ByteString): not shown\n"), "{made}");
        let mut made = String::new();
        branch(&mut made, &item, 0, Show::Skeleton, false);
        assert!(!made.contains(':') && made.contains("  Count (Integer)\n"), "{made}");
    }

    #[test]
    fn long_values_are_cut_and_move_no_cursor() {
        let long = Json::text("a".repeat(65));
        assert_eq!(shown("Data", &long, false), format!("{}.. (65 letters)", "a".repeat(64)));
        assert_eq!(shown("Name", &Json::text("\u{1b}x"), false), "\\u{1b}x");
    }
}

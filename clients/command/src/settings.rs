//! The settings: of the options, of the environment, and of a section of the settings' file.
use crate::conf::{self, Section};
use crate::failure::{setting, Failure};
use std::collections::BTreeMap;
use std::fs::{File, Metadata};
use std::io::Read;
use std::os::unix::fs::{FileTypeExt, MetadataExt, PermissionsExt};
use std::path::{Path, PathBuf};
use zeroize::Zeroizing;

/// Those of this program, of the provider for OpenSSL and of the module of PKCS #11: one file
/// serves them all, and each takes what it knows.
pub const NAMES: [&str; 23] = [
    "server",
    "order",
    "server_name",
    "max_age",
    "certificate",
    "key",
    "authority",
    "passphrase",
    "passphrase_file",
    "user",
    "password",
    "password_file",
    "seconds",
    "limit",
    "record",
    "connections",
    "pss_salt",
    "label",
    "digests",
    "public_name",
    "certificate_name",
    "cache",
    "log",
];
/// Those that are not to be read by others.
const SECRETS: [&str; 2] = ["passphrase", "password"];
/// Where one of a group stands, those of it that stand lower are not looked at.
const GROUPS: [&[&str]; 2] = [&["password", "password_file"], &["passphrase", "passphrase_file"]];
/// A path in a file is one from the folder of the file.
const PATHS: [&str; 7] =
    ["certificate", "key", "authority", "password_file", "passphrase_file", "record", "log"];
const MACHINE: &str = "/etc/metsuwan/kmip.conf";

/// A value, and where it stands.
pub struct Setting {
    pub value: Zeroizing<String>,
    pub origin: String,
}

#[derive(Default)]
pub struct Settings {
    pub of: BTreeMap<&'static str, Setting>,
    pub file: Option<PathBuf>,
    pub profile: Option<String>,
}

/// What the options say.
#[derive(Default)]
pub struct Asked<'a> {
    pub config: Option<&'a str>,
    pub profile: Option<&'a str>,
    pub given: Vec<(&'static str, &'a str)>,
}

impl Settings {
    pub fn get(&self, name: &str) -> Option<&str> {
        self.of.get(name).map(|it| it.value.as_str()).filter(|it| !it.is_empty())
    }

    /// What was set before stands higher.
    fn set(&mut self, name: &'static str, value: &str, origin: &str) {
        let own = [name];
        let group = GROUPS.iter().find(|group| group.contains(&name)).copied().unwrap_or(&own);
        let is_higher = |it: &&str| self.of.get(it).is_some_and(|it| it.origin != origin);
        if group.iter().any(is_higher) || self.of.contains_key(name) {
            return;
        }
        let value = Zeroizing::new(value.to_string());
        self.of.insert(name, Setting { value, origin: origin.into() });
    }
}

/// How many letters have to be changed, added or taken away.
fn distance(from: &str, to: &str) -> usize {
    let to: Vec<char> = to.chars().collect();
    let mut row: Vec<usize> = (0..=to.len()).collect();
    for (at, letter) in from.chars().enumerate() {
        let mut before = row[0];
        row[0] = at + 1;
        for (column, other) in to.iter().enumerate() {
            let changed = before + usize::from(letter != *other);
            before = row[column + 1];
            row[column + 1] = changed.min(row[column] + 1).min(before + 1);
        }
    }
    row[to.len()]
}

/// `: did you mean ..?` where a name is near.
pub fn nearest<'a>(name: &str, among: impl Iterator<Item = &'a str>) -> String {
    let near = among.map(|it| (distance(name, it), it)).min();
    let near = near.filter(|(count, it)| *count <= 2 && *count < it.len());
    near.map_or(String::new(), |(_, it)| format!(": did you mean {it}?"))
}

/// That nobody reads a file with a secret but its owner, who is the user or root. A group may read
/// what is root's, since containers get their secrets so; a pipe is not looked at.
fn check_private(path: &Path, about: &Metadata) -> Result<(), Failure> {
    if about.file_type().is_fifo() {
        return Ok(());
    }
    // SAFETY: it takes nothing, and cannot fail.
    let me = unsafe { libc::geteuid() };
    let shown = path.display();
    let mode = about.permissions().mode() & 0o777;
    if about.uid() != me && about.uid() != 0 {
        return Err(setting(format!("{shown} has a secret, and is another user's")));
    }
    let open = if about.uid() == 0 && me != 0 { 0o037 } else { 0o077 };
    if mode & open != 0 {
        let path = shlex::quote(&path.to_string_lossy()).into_owned();
        let text = format!("{shown} (mode {mode:03o}) has a secret, and others may read it");
        return Err(setting(format!("{text}: chmod 600 {path}")));
    }
    Ok(())
}

/// The bytes of a file, and what the system says of it.
fn open(what: &str, path: &Path) -> Result<(Zeroizing<Vec<u8>>, Metadata), Failure> {
    let wrong = |error| setting(format!("{what} {}: {error}", path.display()));
    let mut file = File::open(path).map_err(wrong)?;
    let about = file.metadata().map_err(wrong)?;
    let mut bytes = Zeroizing::new(Vec::new());
    // What has no end is not to be read whole.
    let most = 1 << 20;
    file.by_ref().take(most).read_to_end(&mut bytes).map_err(wrong)?;
    if bytes.len() as u64 == most {
        return Err(setting(format!("{what} {} has a MiB or more", path.display())));
    }
    Ok((bytes, about))
}

/// The one line of a file with a secret.
pub fn secret_of(name: &str, path: &str) -> Result<Zeroizing<String>, Failure> {
    let (bytes, about) = open(name, Path::new(path))?;
    check_private(Path::new(path), &about)?;
    let text = std::str::from_utf8(&bytes);
    let text = text.map_err(|_| setting(format!("{name} {path} is not UTF-8")))?;
    let line = text.strip_suffix('\n').unwrap_or(text);
    let line = line.strip_suffix('\r').unwrap_or(line);
    if line.is_empty() || line.contains('\n') || line.chars().count() > 1000 {
        return Err(setting(format!("{name} {path} is not one line of at most 1000 characters")));
    }
    Ok(Zeroizing::new(line.to_string()))
}

/// A variable of the environment, where it is set and not empty.
fn variable(name: &str) -> Result<Option<String>, Failure> {
    let Some(value) = std::env::var_os(name) else { return Ok(None) };
    let value = value.into_string().map_err(|_| setting(format!("{name} is not UTF-8")))?;
    Ok(Some(value).filter(|it| !it.is_empty()))
}

/// Where the settings' file is: where it is said to be, else that of the user, else that of the
/// machine.
pub fn file_of(asked: &Asked<'_>) -> Result<Option<PathBuf>, Failure> {
    if let Some(path) = asked.config {
        return Ok(Some(path.into()));
    }
    if let Some(path) = variable("METSUWAN_CONF")? {
        return Ok(Some(path.into()));
    }
    let own = dirs::config_dir().map(|it| it.join("metsuwan/kmip.conf"));
    Ok([own, Some(MACHINE.into())].into_iter().flatten().find(|it| it.exists()))
}

/// The settings: options over the environment over the file. With the option `--profile` the
/// environment is not mixed in: its server would be asked in place of the profile's.
pub fn read(asked: &Asked<'_>) -> Result<Settings, Failure> {
    let mut found = Settings::default();
    for (name, value) in &asked.given {
        found.set(name, value, "option");
    }
    let mut profile = asked.profile.map(str::to_string);
    if profile.is_none() {
        for name in NAMES {
            let named = format!("METSUWAN_{}", name.to_uppercase());
            if let Some(value) = variable(&named)? {
                found.set(name, &value, "environment");
            }
        }
        profile = variable("METSUWAN_PROFILE")?;
    }
    match file_of(asked)? {
        Some(path) => read_file(&mut found, &path, profile.as_deref())?,
        None => {
            if let Some(profile) = &profile {
                let text = format!("there is no file of settings, and so no profile {profile}");
                return Err(setting(text));
            }
        }
    }
    found.profile = profile;
    Ok(found)
}

/// The names of the profiles of a file; none where it cannot be read.
pub fn profiles(path: &Path) -> Vec<String> {
    let bytes = std::fs::read(path).map(Zeroizing::new).unwrap_or_default();
    let sections = conf::read(&bytes).unwrap_or_default();
    sections.into_iter().filter_map(|it| it.name).collect()
}

/// The sections of a profile: its own, and what is of all.
fn sections_of<'a>(
    shown: &str,
    sections: &'a [Section],
    profile: Option<&str>,
) -> Result<Vec<&'a Section>, Failure> {
    let own = sections.iter().find(|it| it.name.as_deref() == Some(profile.unwrap_or("default")));
    if let (Some(profile), None) = (profile, own) {
        let names: Vec<&str> = sections.iter().filter_map(|it| it.name.as_deref()).collect();
        let near = nearest(profile, names.iter().copied());
        let have = if names.is_empty() { "none".into() } else { names.join(", ") };
        return Err(setting(format!("{shown} has no profile {profile}{near} (it has {have})")));
    }
    Ok(own.into_iter().chain(sections.iter().filter(|it| it.name.is_none())).collect())
}

fn read_file(found: &mut Settings, path: &Path, profile: Option<&str>) -> Result<(), Failure> {
    let shown = path.display().to_string();
    let (bytes, about) = open("the settings' file", path)?;
    let sections = conf::read(&bytes)
        .map_err(|wrong| setting(format!("{shown}, line {}: {}", wrong.line, wrong.text)))?;
    let known = |name: &str| NAMES.into_iter().find(|it| *it == name);
    for entry in sections.iter().flat_map(|section| &section.entries) {
        let (line, name) = (entry.line, entry.name.as_str());
        if known(name).is_none() {
            let near = nearest(name, NAMES.into_iter());
            return Err(setting(format!("{shown}, line {line}: there is no setting {name}{near}")));
        }
        if SECRETS.contains(&name) {
            check_private(path, &about)?;
        }
    }
    let folder = path.parent().unwrap_or(Path::new("/"));
    for section in sections_of(&shown, &sections, profile)? {
        let origin = section.name.as_ref().map_or(shown.clone(), |it| format!("{shown} [{it}]"));
        for entry in &section.entries {
            let Some(name) = known(&entry.name) else { continue };
            let path = folder.join(entry.value.as_str());
            let is_path = PATHS.contains(&name) && !entry.value.is_empty();
            let path = path.to_str().filter(|_| is_path);
            found.set(name, path.unwrap_or(&entry.value), &origin);
        }
    }
    found.file = Some(path.into());
    Ok(())
}

#[cfg(test)]
mod tests {
    use super::*;

    #[test]
    fn what_stands_higher_counts() {
        let mut found = Settings::default();
        found.set("server", "a", "option");
        found.set("server", "b", "environment");
        found.set("password", "p", "environment");
        found.set("password_file", "f", "file");
        found.set("passphrase_file", "g", "file [x]");
        found.set("passphrase", "q", "file [x]");
        found.set("user", "", "file");
        assert_eq!(found.get("server"), Some("a"));
        // One of two names for one thing puts the other out, where it stands higher.
        assert_eq!((found.get("password"), found.get("password_file")), (Some("p"), None));
        assert_eq!(found.get("passphrase_file"), Some("g"));
        assert_eq!(found.get("passphrase"), Some("q"));
        assert_eq!((found.get("user"), found.get("key")), (None, None));
    }

    #[test]
    fn the_nearest_name_is_told() {
        let near = |name| nearest(name, NAMES.into_iter());
        assert_eq!(near("sever"), ": did you mean server?");
        assert_eq!(near("pasword"), ": did you mean password?");
        assert_eq!(near("certifcate"), ": did you mean certificate?");
        assert_eq!(near("colour"), "");
        assert_eq!(near(""), "");
        let rows = [("", "", 0), ("a", "", 1), ("kitten", "sitting", 3), ("abc", "abc", 0)];
        for (from, to, wanted) in rows {
            assert_eq!(distance(from, to), wanted, "{from} {to}");
        }
    }
}

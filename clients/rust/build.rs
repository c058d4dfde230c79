//! Links libmetsuwan.a, which clients/build.sh makes.
use std::fs;
use std::path::{Path, PathBuf};

/// Where `clients/install.sh` and the Debian package leave it.
const INSTALLED: [&str; 3] = ["/usr/local/lib", "/usr/lib/x86_64-linux-gnu", "/usr/lib"];

fn main() {
    println!("cargo:rerun-if-env-changed=LIBMETSUWAN_DIR");
    // The documents need no library, and docs.rs has none.
    if std::env::var_os("DOCS_RS").is_some() {
        return;
    }
    match folder().and_then(of_version) {
        Ok(folder) => {
            println!("cargo:rerun-if-changed={}/libmetsuwan.a", folder.display());
            println!("cargo:rustc-link-search=native={}", folder.display());
            println!("cargo:rustc-link-lib=static=metsuwan");
        }
        Err(why) => {
            eprintln!("{why}");
            std::process::exit(1);
        }
    }
}

/// The folder of the library: the one that the environment names, or one where it is installed.
fn folder() -> Result<PathBuf, String> {
    let installed = INSTALLED.map(Path::new);
    let Some(given) = std::env::var_os("LIBMETSUWAN_DIR") else {
        let found = installed.into_iter().find(|it| it.join("libmetsuwan.a").is_file());
        return found.map(Path::to_path_buf).ok_or_else(|| {
            "there is no libmetsuwan.a: clients/build.sh FOLDER makes it, and LIBMETSUWAN_DIR has \
             to be the absolute path of that folder"
                .to_string()
        });
    };
    // cargo runs this in the folder of the crate, and not where it was called.
    let folder = PathBuf::from(given);
    let library = folder.join("libmetsuwan.a");
    if library.is_absolute() && library.is_file() {
        return Ok(folder);
    }
    Err(format!(
        "LIBMETSUWAN_DIR has to be the absolute path of a folder with libmetsuwan.a, which \
         clients/build.sh makes: {} is no such file",
        library.display()
    ))
}

/// The folder, where its library has the version of the crate: the calls of another one take other
/// arguments.
fn of_version(folder: PathBuf) -> Result<PathBuf, String> {
    let major = concat!(env!("CARGO_PKG_VERSION_MAJOR"), ".");
    let path = folder.join("libmetsuwan.a");
    let library = fs::read(&path).map_err(|error| format!("{}: {error}", path.display()))?;
    let library = String::from_utf8_lossy(&library);
    // What `kmip_version` may return: "2.0, not proved".
    let is_it = library.match_indices(", not proved").any(|(at, _)| {
        let front = library[..at].trim_end_matches(|digit: char| digit.is_ascii_digit());
        // ("12.0" is of another one)
        front
            .strip_suffix(major)
            .is_some_and(|front| !front.ends_with(|it: char| it.is_ascii_digit()))
    });
    is_it.then_some(folder).ok_or_else(|| {
        format!("{} is not of version {major}x, which the crate is for", path.display())
    })
}

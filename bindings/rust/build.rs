//! Finds libpartyid.a: in the folder that PARTYID_LIB_DIR names, else where `make` puts it in the repository that this crate stands in, else
//! where pkg-config knows it.

use std::env;
use std::path::{Path, PathBuf};
use std::process::Command;

fn main() {
    match folder() {
        Ok(folder) => {
            let library = library_in(&folder);
            println!("cargo::rerun-if-changed={}", library.display());
            println!("cargo::rustc-link-search=native={}", folder.display());
        }
        Err(why) => why.lines().for_each(|line| println!("cargo::error={line}")),
    }
}

fn folder() -> Result<PathBuf, String> {
    match variable("PARTYID_LIB_DIR") {
        Some(named) => named_folder(Path::new(&named)),
        None => in_repository().or_else(by_pkg_config).ok_or_else(|| {
            "libpartyid.a is not found\n\
             run `make` in the repository's folder, install it where pkg-config finds it, or name its folder in PARTYID_LIB_DIR"
                .into()
        }),
    }
}

/// A variable of the environment, on which the search depends from then on. An empty one is as none.
fn variable(name: &str) -> Option<String> {
    println!("cargo::rerun-if-env-changed={name}");
    env::var(name).ok().filter(|value| !value.is_empty())
}

fn library_in(folder: &Path) -> PathBuf {
    folder.join("libpartyid.a")
}

fn has_library(folder: &Path) -> bool {
    library_in(folder).is_file()
}

fn named_folder(named: &Path) -> Result<PathBuf, String> {
    let folder = from_where_the_user_stands(named)?;
    if has_library(&folder) {
        return Ok(folder);
    }
    Err(format!(
        "there is no {}\nPARTYID_LIB_DIR names the folder that libpartyid.a is in",
        library_in(&folder).display()
    ))
}

/// Cargo starts this program in the crate's folder, and leaves PWD as it was.
fn from_where_the_user_stands(named: &Path) -> Result<PathBuf, String> {
    if named.is_absolute() {
        return Ok(named.into());
    }
    match variable("PWD") {
        Some(here) => Ok(Path::new(&here).join(named)),
        None => Err(format!(
            "PARTYID_LIB_DIR={}: name it from / on, because PWD is not set",
            named.display()
        )),
    }
}

/// The repository is the nearest folder above that has the library's header.
fn in_repository() -> Option<PathBuf> {
    let mut above = Path::new(env!("CARGO_MANIFEST_DIR")).ancestors();
    let root = above.find(|folder| folder.join("include/partyid.h").is_file())?;
    let folder = root.join("target/c");
    println!("cargo::rerun-if-changed={}", library_in(&folder).display());
    has_library(&folder).then_some(folder)
}

fn by_pkg_config() -> Option<PathBuf> {
    variable("PKG_CONFIG_PATH");
    variable("PKG_CONFIG_LIBDIR");
    let program = variable("PKG_CONFIG").unwrap_or("pkg-config".into());
    let said = Command::new(program)
        .args(["--variable=libdir", "partyid"])
        .output()
        .ok()?;
    let folder = PathBuf::from(String::from_utf8(said.stdout).ok()?.trim_end());
    (said.status.success() && has_library(&folder)).then_some(folder)
}

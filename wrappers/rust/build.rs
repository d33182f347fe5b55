//! Finds the library: in the folder `ABT_LIB_DIR`, or else by abt.pc, also the one of the release that this crate is a part of.
use std::env;
use std::path::{Path, PathBuf};
use std::process::Command;

/// The version of the library that this crate is for.
const VERSION: &str = env!("CARGO_PKG_VERSION");

/// What `pkg-config` says of abt, if it knows it.
fn told(word: &str) -> Option<String> {
    let asked = Command::new("pkg-config").args([word, "abt"]).output().ok().filter(|asked| asked.status.success())?;
    String::from_utf8(asked.stdout).ok().map(|text| text.trim().to_owned())
}

/// The version in the abt.pc beside a library, if there is one.
fn version_beside(folder: &Path) -> Option<String> {
    let text = std::fs::read_to_string(folder.join("pkgconfig/abt.pc")).ok()?;
    text.lines().find_map(|line| line.strip_prefix("Version: ")).map(str::to_owned)
}

/// The folder of the library, and its version where a file says it.
fn library() -> Option<(PathBuf, Option<String>)> {
    if let Some(folder) = env::var_os("ABT_LIB_DIR") {
        let folder = PathBuf::from(folder);
        return Some((folder.clone(), version_beside(&folder)));
    }
    let release = Path::new(env!("CARGO_MANIFEST_DIR")).join("../../../lib");
    if release.join("libabt.a").is_file() {
        return Some((release.clone(), version_beside(&release)));
    }
    Some((PathBuf::from(told("--variable=libdir")?), told("--modversion")))
}

fn main() {
    println!("cargo:rerun-if-env-changed=ABT_LIB_DIR");
    println!("cargo:rerun-if-env-changed=PKG_CONFIG_PATH");
    let Some((folder, version)) = library() else {
        eprintln!("abt {VERSION}: no library libabt.a found; name its folder in ABT_LIB_DIR, or that of abt.pc in PKG_CONFIG_PATH");
        std::process::exit(1);
    };
    if !folder.join("libabt.a").is_file() {
        eprintln!("abt {VERSION}: there is no libabt.a in {}", folder.display());
        std::process::exit(1);
    }
    if let Some(other) = version.filter(|version| version != VERSION) {
        eprintln!("abt {VERSION}: the library in {} is of version {other}", folder.display());
        std::process::exit(1);
    }
    println!("cargo:rerun-if-changed={}", folder.join("libabt.a").display());
    println!("cargo:rustc-link-search=native={}", folder.display());
    println!("cargo:rustc-link-lib=static=abt");
}

//! Finds the static library: in the folder of the variable `COSE_LIB_DIR`, in the crate itself, where a release has put one for the
//! processor, or where `pkg-config` says that `cose` is. One without the mark of a proof is refused.

use std::env;
use std::path::{Path, PathBuf};
use std::process::{exit, Command};
use std::{fs, io};

/// The names that the archive has: as `./install` writes it, and as it is built.
const NAMES: [&str; 2] = ["cose", "cose_c"];

/// What the compiler writes into what it makes of a proved crate, and into nothing else.
const MARK: &[u8] = b"rattle logic=";

/// Whether an archive has the mark of a proof.
fn is_proved(archive: &Path) -> io::Result<bool> {
    let content = fs::read(archive)?;
    Ok(content.windows(MARK.len()).any(|bytes| bytes == MARK))
}

/// The folder of libraries of an installed `cose`, by `pkg-config`.
fn installed() -> Option<PathBuf> {
    let program = env::var_os("PKG_CONFIG").unwrap_or_else(|| "pkg-config".into());
    let output = Command::new(program)
        .args(["--variable=libdir", "cose"])
        .output()
        .ok()?;
    let folder = String::from_utf8(output.stdout).ok()?;
    (output.status.success() && !folder.trim().is_empty()).then(|| folder.trim().into())
}

/// The folder of the archive that a release has put into the crate for this processor, on Linux.
fn packed() -> Option<PathBuf> {
    if env::var("CARGO_CFG_TARGET_OS").ok()? != "linux" {
        return None;
    }
    let processor = env::var("CARGO_CFG_TARGET_ARCH").ok()?;
    let folder = Path::new(&env::var_os("CARGO_MANIFEST_DIR")?)
        .join("lib")
        .join(processor);
    name_in(&folder).map(|_| folder)
}

/// The name of the archive in a folder.
fn name_in(folder: &Path) -> Option<&'static str> {
    NAMES
        .into_iter()
        .find(|name| folder.join(format!("lib{name}.a")).is_file())
}

fn main() {
    for variable in ["COSE_LIB_DIR", "PKG_CONFIG", "PKG_CONFIG_PATH"] {
        println!("cargo:rerun-if-env-changed={variable}");
    }
    // There the pages alone are built.
    if env::var_os("DOCS_RS").is_some() {
        return;
    }
    let folder = env::var_os("COSE_LIB_DIR")
        .map(PathBuf::from)
        .or_else(packed)
        .or_else(installed);
    let found = folder.and_then(|folder| name_in(&folder).map(|name| (folder, name)));
    let Some((folder, name)) = found else {
        eprintln!(
            "there is no libcose.a: set COSE_LIB_DIR to its folder, or PKG_CONFIG_PATH to that of cose.pc"
        );
        exit(1);
    };
    let archive = folder.join(format!("lib{name}.a"));
    println!("cargo:rerun-if-changed={}", archive.display());
    match is_proved(&archive) {
        Ok(true) => {}
        Ok(false) => {
            eprintln!(
                "{} isn't what the compiler makes of a proved crate",
                archive.display()
            );
            exit(1);
        }
        Err(fault) => {
            eprintln!("{}: {fault}", archive.display());
            exit(1);
        }
    }
    println!("cargo:rustc-link-search=native={}", folder.display());
    println!("cargo:rustc-link-lib=static={name}");
}

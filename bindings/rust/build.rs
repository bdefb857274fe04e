//! Links libsandline_c.a. `SANDLINE_ARCHIVE` is the folder that holds it: what was given to
//! tools/archive. A relative one begins where cargo was called.

use std::env::var_os;
use std::path::{Path, PathBuf};

fn main() {
    println!("cargo:rerun-if-env-changed=SANDLINE_ARCHIVE");
    let folder = folder().unwrap_or_else(|missing| {
        eprintln!("sandline: {missing}");
        std::process::exit(1)
    });
    println!("cargo:rerun-if-changed={}/libsandline_c.a", folder.display());
    println!("cargo:rustc-link-search=native={}", folder.display());
    println!("cargo:rustc-link-lib=static=sandline_c");
}

/// The folder of the archive, or what is missing.
fn folder() -> Result<PathBuf, String> {
    let given = var_os("SANDLINE_ARCHIVE").filter(|given| !given.is_empty()).ok_or(
        "SANDLINE_ARCHIVE is not set. It names the folder that holds libsandline_c.a; \
         the repository's tools/archive FOLDER makes it there.",
    )?;
    let folder = from_caller(Path::new(&given))?;
    if folder.join("libsandline_c.a").is_file() {
        return Ok(folder);
    }
    let folder = folder.display();
    Err(format!(
        "no libsandline_c.a in {folder}, the folder that SANDLINE_ARCHIVE names. \
         The repository's tools/archive {folder} makes it there."
    ))
}

/// Cargo runs this in the crate's folder. Where cargo itself was called, the shell's `PWD` says.
fn from_caller(folder: &Path) -> Result<PathBuf, String> {
    if folder.is_absolute() {
        return Ok(folder.to_path_buf());
    }
    println!("cargo:rerun-if-env-changed=PWD");
    let caller =
        var_os("PWD").ok_or("SANDLINE_ARCHIVE is not an absolute path, and PWD is not set.")?;
    Ok(Path::new(&caller).join(folder))
}

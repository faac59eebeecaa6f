//! Links the proved library: the archive that JADMIRUS_LIB names, else the repository's own.
use std::env;
use std::fs;
use std::path::{Path, PathBuf};

fn main() {
    println!("cargo::rerun-if-env-changed=JADMIRUS_LIB");
    if let Err(message) = link() {
        println!("cargo::error={message}");
    }
}

fn link() -> Result<(), String> {
    let archive = archive()?;
    println!("cargo::rerun-if-changed={}", archive.display());
    // A copy under the linker's usual name, so that JADMIRUS_LIB may name a file of any name.
    let out = PathBuf::from(variable("OUT_DIR")?);
    fs::copy(&archive, out.join("libjadmirus.a"))
        .map_err(|e| format!("{} can't be read: {e}", archive.display()))?;
    println!("cargo::rustc-link-search=native={}", out.display());
    println!("cargo::rustc-link-lib=static=jadmirus");
    Ok(())
}

fn archive() -> Result<PathBuf, String> {
    if let Some(path) = env::var_os("JADMIRUS_LIB").filter(|path| !path.is_empty()) {
        let path = PathBuf::from(path);
        return match path.is_file() {
            true => Ok(path),
            false => Err(format!(
                "JADMIRUS_LIB names no file: {} (one that doesn't begin with '/' is looked for from \
                 this crate's folder)",
                path.display()
            )),
        };
    }
    let manifest = variable("CARGO_MANIFEST_DIR")?;
    let path = Path::new(&manifest).join("../../target/staticlib/libjadmirus.a");
    match path.is_file() {
        true => Ok(path),
        false => Err(
            "the proved library is not there: run 'tools/staticlib' in the repository's \
             root, which writes target/staticlib/libjadmirus.a, or name an archive with \
             JADMIRUS_LIB"
                .to_string(),
        ),
    }
}

fn variable(name: &str) -> Result<String, String> {
    env::var(name).map_err(|e| format!("{name}: {e}"))
}

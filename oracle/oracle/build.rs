// Links the joiner's static library into the program if JADMIRUS_LIB names it.
use std::env;
use std::path::Path;

fn main() {
    println!("cargo:rustc-check-cfg=cfg(library)");
    println!("cargo:rerun-if-env-changed=JADMIRUS_LIB");
    if let Some(path) = env::var_os("JADMIRUS_LIB").filter(|path| !path.is_empty()) {
        let path = Path::new(&path);
        assert!(path.is_file(), "JADMIRUS_LIB names no file: {}", path.display());
        println!("cargo:rustc-cfg=library");
        println!("cargo:rerun-if-changed={}", path.display());
        println!("cargo:rustc-link-arg={}", path.display());
    }
}

//! Tells cargo where libdogma is: the file or the folder that DOGMA_LIBRARY names, else what `library/build` wrote in this repository,
//! else what pkg-config knows of `dogma` (`library/install` puts that there), else the linker's own folders.
use std::path::{Path, PathBuf};
use std::process::Command;

fn folder_of(library: &Path) -> PathBuf {
    if library.is_dir() {
        return library.to_path_buf();
    }
    library.parent().filter(|folder| !folder.as_os_str().is_empty()).unwrap_or(Path::new(".")).to_path_buf()
}

fn from_pkg_config() -> Option<PathBuf> {
    let said = Command::new("pkg-config").args(["--variable=libdir", "dogma"]).output().ok()?;
    let folder = String::from_utf8(said.stdout).ok()?;
    (said.status.success() && !folder.trim().is_empty()).then(|| PathBuf::from(folder.trim()))
}

fn main() {
    println!("cargo:rerun-if-env-changed=DOGMA_LIBRARY");
    let place = Path::new(env!("CARGO_MANIFEST_DIR")).join("../target/staticlib/libdogma.a");
    println!("cargo:rerun-if-changed={}", place.display());
    let built = Some(place).filter(|library| library.is_file());
    let given = std::env::var_os("DOGMA_LIBRARY").map(PathBuf::from);
    if let Some(library) = given.or(built) {
        println!("cargo:rerun-if-changed={}", library.display());
        println!("cargo:rustc-link-search=native={}", folder_of(&library).display());
        // an archive of another name, such as one that is tried, is linked by its file
        let kind = if library.extension().is_some_and(|ending| ending == "so") { "dylib" } else { "static" };
        match library.file_name().and_then(|name| name.to_str()) {
            Some(name) if library.is_file() && name != "libdogma.a" && name != "libdogma.so" => {
                println!("cargo:rustc-link-lib={kind}:+verbatim={name}")
            }
            _ => println!("cargo:rustc-link-lib={kind}=dogma"),
        }
        return;
    }
    match from_pkg_config() {
        Some(folder) => println!("cargo:rustc-link-search=native={}", folder.display()),
        None => {
            println!("cargo:warning=libdogma is sought in the linker's folders alone: build it (library/build), install it, or set DOGMA_LIBRARY")
        }
    }
    println!("cargo:rustc-link-lib=dogma");
}

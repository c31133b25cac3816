//! Links to librpki: of the folder that RPKI_LIBRARY names; or to the static one that a release of
//! this crate has in `lib`; or of the folder that pkg-config knows, or where the linker looks for
//! libraries.
use std::env;
use std::path::{Path, PathBuf};
use std::process::Command;

/// The folder that rpki.pc names, where pkg-config finds that.
fn of_pkg_config() -> Option<PathBuf> {
    println!("cargo:rerun-if-env-changed=PKG_CONFIG_PATH");
    let mut command = Command::new("pkg-config");
    let said = command.args(["--variable=libdir", "rpki"]).output().ok()?;
    let folder = String::from_utf8(said.stdout).ok()?.trim().to_string();
    (said.status.success() && !folder.is_empty()).then(|| folder.into())
}

fn main() {
    println!("cargo:rerun-if-env-changed=RPKI_LIBRARY");
    let own = env::var_os("CARGO_MANIFEST_DIR").map(|it| PathBuf::from(it).join("lib"));
    let own = own.filter(|it| it.join("librpki.a").is_file());
    let named = env::var_os("RPKI_LIBRARY").map(PathBuf::from);
    let has_own = named.is_none() && own.is_some();
    let (form, file) = match has_own || env::var_os("CARGO_FEATURE_STATIC").is_some() {
        true => ("static", "librpki.a"),
        false => ("dylib", "librpki.so"),
    };
    if let Some(folder) = named.as_ref().filter(|it| !it.join(file).is_file()) {
        let folder = folder.display();
        println!("cargo:warning=RPKI_LIBRARY is {folder}, and there is no {file}");
    }
    match named.or(own).or_else(of_pkg_config) {
        Some(folder) => println!("cargo:rustc-link-search=native={}", folder.display()),
        None if Path::new("/usr/local/lib").join(file).is_file() => {}
        None => println!(
            "cargo:warning=the linker has to find {file} by itself: where it doesn't, name its \
             folder in RPKI_LIBRARY, or that of rpki.pc in PKG_CONFIG_PATH"
        ),
    }
    println!("cargo:rustc-link-lib={form}=rpki");
}

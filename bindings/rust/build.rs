//! Links the library: that of the folder which `WARG_LIBRARY_DIR` names, the one that pkg-config finds where the feature
//! `system` asks for it, or the package's own in `lib/`.
use std::path::{Path, PathBuf};
use std::process::{exit, Command};
use std::{env, fs};

/// What went wrong, as a warning of cargo's, and no build.
fn fail(why: &str) -> ! {
    println!("cargo:warning={why}");
    exit(1)
}

/// A word of the environment that cargo sets.
fn said(name: &str) -> String {
    env::var(name).unwrap_or_default()
}

/// The folders of `lib/`, one a machine.
fn machines(lib: &Path) -> String {
    let folders = fs::read_dir(lib).into_iter().flatten().flatten();
    let mut names: Vec<String> = folders.map(|it| it.file_name().to_string_lossy().into_owned()).collect();
    names.sort();
    names.join(", ")
}

/// The folder of the package's own library for the machine that is built for.
fn own(root: &Path) -> PathBuf {
    let lib = root.join("lib");
    let machine = format!("{}-{}", said("CARGO_CFG_TARGET_ARCH"), said("CARGO_CFG_TARGET_OS"));
    let abi = said("CARGO_CFG_TARGET_ENV");
    let folder = lib.join(&machine);
    if abi != "gnu" || !folder.join("libwarg.a").is_file() {
        fail(&format!(
            "there is no library for {machine} with the C library {abi:?}, but for {} with glibc: name the folder of a \
             libwarg.a in WARG_LIBRARY_DIR, or link an installed one by the feature `system`",
            machines(&lib)
        ));
    }
    folder
}

/// Links the archive of a folder.
fn link(folder: &Path) {
    let library = folder.join("libwarg.a");
    if !library.is_file() {
        fail(&format!("there is no library {}", library.display()));
    }
    println!("cargo:rerun-if-changed={}", library.display());
    println!("cargo:rustc-link-search=native={}", folder.display());
    println!("cargo:rustc-link-lib=static=warg");
}

/// Links what pkg-config finds. Its calls have to be those of this version: below 1.0.0 another second number may change
/// them.
fn link_installed() {
    let version = said("CARGO_PKG_VERSION");
    let (first, second) = (said("CARGO_PKG_VERSION_MAJOR"), said("CARGO_PKG_VERSION_MINOR"));
    let number = |it: &str| it.parse::<u64>().unwrap_or_default() + 1;
    let below = if first == "0" { format!("0.{}", number(&second)) } else { number(&first).to_string() };
    for it in ["PKG_CONFIG", "PKG_CONFIG_PATH", "PKG_CONFIG_LIBDIR", "PKG_CONFIG_SYSROOT_DIR"] {
        println!("cargo:rerun-if-env-changed={it}");
    }
    let command = env::var_os("PKG_CONFIG").unwrap_or_else(|| "pkg-config".into());
    let wanted = format!("warg >= {version} warg < {below}");
    let done = match Command::new(&command).args(["--libs-only-L", "--print-errors", &wanted]).output() {
        Ok(done) if done.status.success() => done,
        Ok(done) => fail(&format!("{wanted}: {}", String::from_utf8_lossy(&done.stderr).replace('\n', " "))),
        Err(error) => fail(&format!("{}: {error}", command.to_string_lossy())),
    };
    // A space in a path has a backslash before it.
    let printed = String::from_utf8_lossy(&done.stdout).replace("\\ ", "\0");
    for folder in printed.split_whitespace().filter_map(|it| it.strip_prefix("-L")) {
        println!("cargo:rustc-link-search=native={}", folder.replace('\0', " "));
    }
    println!("cargo:rustc-link-lib=dylib=warg");
}

fn main() {
    let root = PathBuf::from(env::var_os("CARGO_MANIFEST_DIR").expect("cargo names the package's folder"));
    println!("cargo:rerun-if-env-changed=WARG_LIBRARY_DIR");
    println!("cargo:rerun-if-changed=build.rs");
    match env::var_os("WARG_LIBRARY_DIR") {
        Some(folder) => link(Path::new(&folder)),
        // The documents need no library.
        None if env::var_os("DOCS_RS").is_some() => {}
        None if env::var_os("CARGO_FEATURE_SYSTEM").is_some() => link_installed(),
        None => link(&own(&root)),
    }
    // For a crate that stands on this one and has code of C: it finds the folder as DEP_WARG_INCLUDE.
    println!("cargo:include={}", root.join("include").display());
    if env::var_os("CARGO_FEATURE_OPENSSL").is_some() {
        println!("cargo:rustc-link-lib=crypto");
    }
}

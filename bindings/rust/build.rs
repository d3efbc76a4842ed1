//! Finds the archives of the proved calls (crates `ffi` and `reader_ffi` of the repository), copies them into OUT_DIR and links them.
//!
//! They are `libffi.a` and `libreader_ffi.a` in the folder `VARIANT_STATICLIB`, else `crates/ffi/out/libffi.a` and
//! `crates/reader_ffi/out/libreader_ffi.a` of the repository. Where one is missing there, or older than a source, `rt lib` in its crate's folder
//! makes it: that proves its crate and all that it stands on, which takes minutes from nothing. The copies are what is linked, since `rt ci`
//! removes the archives.
use std::path::{Path, PathBuf};
use std::process::{exit, Command};
use std::time::SystemTime;
use std::{env, fs};

const CRATES: [&str; 2] = ["ffi", "reader_ffi"];

fn main() {
    let here = PathBuf::from(env::var_os("CARGO_MANIFEST_DIR").expect("cargo sets CARGO_MANIFEST_DIR"));
    let root = here.ancestors().nth(2).expect("bindings/rust stands in the repository");
    println!("cargo:rerun-if-env-changed=VARIANT_STATICLIB");
    let given = env::var_os("VARIANT_STATICLIB").map(PathBuf::from);
    let newest = if given.is_some() { None } else { sources(root) };
    let out = PathBuf::from(env::var_os("OUT_DIR").expect("cargo sets OUT_DIR"));
    println!("cargo:rustc-link-search=native={}", out.display());
    for name in CRATES {
        let library = match &given {
            Some(folder) => folder.join(format!("lib{name}.a")),
            None => made(root, name, newest),
        };
        println!("cargo:rerun-if-changed={}", library.display());
        // under another name, since systems have a libffi of their own
        if let Err(e) = fs::copy(&library, out.join(format!("libvariant_{name}.a"))) {
            fail(&format!(
                "{}: {e}. `rt lib` in crates/{name} writes it; VARIANT_STATICLIB names a folder that holds both archives",
                library.display()
            ));
        }
        println!("cargo:rustc-link-lib=static=variant_{name}");
    }
}

fn fail(message: &str) -> ! {
    eprintln!("{message}");
    exit(1)
}

/// The repository's archive of a crate, made where it is missing or older than the newest source.
fn made(root: &Path, name: &str, newest: Option<SystemTime>) -> PathBuf {
    let folder = root.join("crates").join(name);
    let library = folder.join(format!("out/lib{name}.a"));
    if changed(&library).is_some() && changed(&library) >= newest {
        return library;
    }
    match Command::new("rt").arg("lib").current_dir(&folder).output() {
        Ok(o) if o.status.success() => library,
        Ok(o) => fail(&format!("`rt lib` in crates/{name} failed:\n{}{}", text(&o.stdout), text(&o.stderr))),
        Err(e) => fail(&format!(
            "{} is missing or older than a source, and `rt` (the Rattle kit), which makes it, cannot be run: {e}",
            library.display()
        )),
    }
}

fn text(bytes: &[u8]) -> String {
    String::from_utf8_lossy(bytes).into_owned()
}

/// When the newest source of the repository's crates was changed; cargo is told of their folders.
fn sources(root: &Path) -> Option<SystemTime> {
    let mut newest = None;
    for name in fs::read_dir(root.join("crates")).into_iter().flatten().flatten() {
        let folder = name.path().join("src");
        if folder.is_dir() {
            println!("cargo:rerun-if-changed={}", folder.display());
        }
        for file in fs::read_dir(folder).into_iter().flatten().flatten() {
            newest = newest.max(changed(&file.path()));
        }
    }
    newest
}

fn changed(path: &Path) -> Option<SystemTime> {
    fs::metadata(path).and_then(|m| m.modified()).ok()
}

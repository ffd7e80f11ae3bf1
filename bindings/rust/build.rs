//! Finds the library's archive, or has `rt` prove and build it, and links it.
use std::env;
use std::path::{Path, PathBuf};
use std::process::{Command, exit};

fn fail(message: &str) -> ! {
    eprintln!("\nfunnelcress: {message}\n");
    exit(1)
}

/// The repository's top, two folders above this package.
fn repository() -> PathBuf {
    let here = PathBuf::from(env::var("CARGO_MANIFEST_DIR").expect("set by cargo"));
    here.join("../..")
}

/// Proves the library and writes its archive.
fn build(top: &Path) {
    let rt = env::var("RT").unwrap_or("rt".into());
    let ran = Command::new(&rt).arg("lib").current_dir(top.join("crates/funnelcress")).status();
    match ran {
        Ok(status) if status.success() => {}
        Ok(status) => fail(&format!("`{rt} lib` in crates/funnelcress ended with {status}; what it printed says why")),
        Err(e) => fail(&format!(
            "there is no archive at crates/funnelcress/out/libfunnelcress.a, and `{rt}`, the Rattle toolchain's command, \
             cannot be run to build one ({e}).\nInstall the toolchain and put `rt` on the PATH (or name it in RT), \
             or name an archive that was built elsewhere in FUNNELCRESS_ARCHIVE."
        )),
    }
}

/// The archive: the one named, or the repository's, built where there is none.
fn archive() -> PathBuf {
    if let Ok(named) = env::var("FUNNELCRESS_ARCHIVE") {
        let path = PathBuf::from(&named);
        if !path.is_file() {
            fail(&format!("FUNNELCRESS_ARCHIVE names {named}, which is no file"));
        }
        return path;
    }
    let top = repository();
    let path = top.join("crates/funnelcress/out/libfunnelcress.a");
    if !path.is_file() {
        build(&top);
    }
    path
}

fn main() {
    println!("cargo:rerun-if-env-changed=FUNNELCRESS_ARCHIVE");
    println!("cargo:rerun-if-env-changed=RT");
    let target = env::var("TARGET").unwrap_or_default();
    if !(target.starts_with("x86_64") && target.contains("linux")) {
        fail(&format!("the archive is for x86-64 Linux, and the target is {target}"));
    }
    let found = archive();
    println!("cargo:rerun-if-changed={}", found.display());
    let out = PathBuf::from(env::var("OUT_DIR").expect("set by cargo"));
    let copy = out.join("libfunnelcress.a");
    if let Err(e) = std::fs::copy(&found, &copy) {
        fail(&format!("{} can't be read: {e}", found.display()));
    }
    println!("cargo:rustc-link-search=native={}", out.display());
    println!("cargo:rustc-link-lib=static=funnelcress");
}

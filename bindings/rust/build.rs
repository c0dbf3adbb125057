// Tells rustc where libiflughan.a lies: the folder that IFLUGHAN_LIB_DIR names, or the one that `./iflughan build` writes.
use std::env;
use std::fs;
use std::os::unix::process::parent_id;
use std::path::PathBuf;

/// The folder that cargo was called in. This program runs in the package's folder, and a relative IFLUGHAN_LIB_DIR is the caller's.
fn callers_folder() -> PathBuf {
    let of_cargo = fs::read_link(format!("/proc/{}/cwd", parent_id())).ok();
    let of_the_shell = || env::var_os("PWD").map(PathBuf::from);
    of_cargo.or_else(of_the_shell).unwrap_or_default()
}

fn main() {
    println!("cargo:rerun-if-env-changed=IFLUGHAN_LIB_DIR");
    let package =
        PathBuf::from(env::var("CARGO_MANIFEST_DIR").expect("cargo sets CARGO_MANIFEST_DIR"));
    let folder = match env::var_os("IFLUGHAN_LIB_DIR") {
        Some(folder) => {
            // The same words mean another folder where the caller stands elsewhere.
            println!("cargo:rerun-if-env-changed=PWD");
            callers_folder().join(folder)
        }
        None => package.join("../../target/iflughan"),
    };
    let archive = folder.join("libiflughan.a");
    if !archive.is_file() {
        panic!(
            "{} is not there: run ./iflughan build, or set IFLUGHAN_LIB_DIR",
            archive.display()
        );
    }
    println!("cargo:rerun-if-changed={}", archive.display());
    println!("cargo:rustc-link-search=native={}", folder.display());
}

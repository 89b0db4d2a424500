//! Asks pkg-config for the installed library, and tells the tests where its header is.

use std::env;
use std::process::Command;

/// Returns what pkg-config answers to these words, for the library.
fn pkg_config(words: &[&str]) -> String {
    let program = env::var("PKG_CONFIG").unwrap_or_else(|_| "pkg-config".into());
    let ran = Command::new(&program).args(words).arg("bimphlai").output();
    let output = ran.unwrap_or_else(|error| panic!("{program}: {error}"));
    assert!(output.status.success(), "{}", String::from_utf8_lossy(&output.stderr));
    String::from_utf8_lossy(&output.stdout).trim().to_string()
}

fn main() {
    for word in pkg_config(&["--libs"]).split_whitespace() {
        if let Some(folder) = word.strip_prefix("-L") {
            println!("cargo:rustc-link-search=native={folder}");
            println!("cargo:rustc-link-arg=-Wl,-rpath,{folder}");
        }
    }
    println!("cargo:rustc-link-lib=bimphlai");
    let folders = pkg_config(&["--cflags-only-I"]);
    let folder = folders.strip_prefix("-I").unwrap_or("/usr/include");
    println!("cargo:rustc-env=BIMPHLAI_HEADER={folder}/bimphlai.h");
    for name in ["PKG_CONFIG", "PKG_CONFIG_PATH", "PKG_CONFIG_LIBDIR", "PKG_CONFIG_SYSROOT_DIR"] {
        println!("cargo:rerun-if-env-changed={name}");
    }
    println!("cargo:rerun-if-changed={folder}/bimphlai.h");
}

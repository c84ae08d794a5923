//! Where KUSILLAQE_BEFORE names an earlier archive of the library, links its check and its test beside the present ones, under other names.

use std::path::PathBuf;
use std::process::Command;

const NAMES: [&str; 2] = ["kusillaqe_check", "kusillaqe_test"];

fn main() {
    println!("cargo::rustc-check-cfg=cfg(before)");
    println!("cargo::rerun-if-env-changed=KUSILLAQE_BEFORE");
    let Ok(archive) = std::env::var("KUSILLAQE_BEFORE") else {
        return;
    };
    println!("cargo::rerun-if-changed={archive}");
    let folder = PathBuf::from(std::env::var("OUT_DIR").expect("cargo sets it"));
    let mut objcopy = Command::new("objcopy");
    for name in NAMES {
        objcopy.arg(format!("--redefine-sym={name}={name}_before"));
        objcopy.arg(format!("--keep-global-symbol={name}_before"));
    }
    let renamed = objcopy.arg(&archive).arg(folder.join("libbefore.a")).status();
    assert!(renamed.is_ok_and(|status| status.success()), "objcopy of {archive}");
    println!("cargo::rustc-cfg=before");
    println!("cargo::rustc-link-search=native={}", folder.display());
    println!("cargo::rustc-link-lib=static=before");
}

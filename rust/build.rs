//! Tells cargo where the static library lies: in the folder that `LEAVNNJAR_LIB` names, else where
//! `library` beside this file puts it. Where it cannot be linked, says why: the linker would not.

use std::env;
use std::path::PathBuf;

fn main() {
    println!("cargo::rerun-if-env-changed=LEAVNNJAR_LIB");
    match library() {
        Ok(folder) => {
            let folder = folder.display();
            println!("cargo::rerun-if-changed={folder}/libhost.a");
            println!("cargo::rustc-link-search=native={folder}");
            println!("cargo::rustc-link-lib=static=host");
        }
        Err(why) => println!("cargo::error={why}"),
    }
}

/// The folder of a library that the target can link, or what is missing.
fn library() -> Result<PathBuf, String> {
    let of_cargo = |name: &str| env::var(name).unwrap_or_else(|_| panic!("cargo sets {name}"));
    let target = of_cargo("TARGET");
    let kind = (
        of_cargo("CARGO_CFG_TARGET_ARCH"),
        of_cargo("CARGO_CFG_TARGET_OS"),
    );
    if kind != ("x86_64".into(), "linux".into()) {
        return Err(format!(
            "libhost.a is for x86-64 Linux, and this build is for {target}: \
             give cargo --target x86_64-unknown-linux-gnu"
        ));
    }

    let named = env::var("LEAVNNJAR_LIB").unwrap_or_default();
    let folder = if named.is_empty() {
        PathBuf::from(of_cargo("CARGO_MANIFEST_DIR")).join("../target/staticlib")
    } else {
        PathBuf::from(named)
    };
    if !folder.is_absolute() {
        return Err(format!(
            "LEAVNNJAR_LIB is not a full path: {}",
            folder.display()
        ));
    }
    if !folder.join("libhost.a").is_file() {
        return Err(format!(
            "no libhost.a in {}: make it by `rust/library` at the top of the repository, \
             or name the folder of one by LEAVNNJAR_LIB",
            folder.display()
        ));
    }
    Ok(folder)
}

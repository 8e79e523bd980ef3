//! Finds the static library: in the folder that `USBDISK_LIB` names, or beside that file; else that of
//! the archive for makers, or of the repository.
use std::env;
use std::path::{Path, PathBuf};

const NAME: &str = "libusbdisk_c.a";

fn folders() -> Vec<PathBuf> {
    if let Some(named) = env::var_os("USBDISK_LIB") {
        let named = PathBuf::from(named);
        return vec![if named.is_file() {
            named.parent().unwrap_or(Path::new(".")).into()
        } else {
            named
        }];
    }
    let top = Path::new(&env::var_os("CARGO_MANIFEST_DIR").unwrap()).join("../..");
    let target = format!("{}-linux-gnu", env::var("CARGO_CFG_TARGET_ARCH").unwrap());
    vec![
        top.join("lib").join(target),
        top.join("crates/usbdisk_c/out"),
    ]
}

fn main() {
    println!("cargo:rerun-if-env-changed=USBDISK_LIB");
    let folders = folders();
    let found = folders.iter().find(|it| it.join(NAME).is_file());
    let folder =
        found.unwrap_or_else(|| panic!("no {NAME} in {folders:?}: USBDISK_LIB tells its folder"));
    println!("cargo:rerun-if-changed={}", folder.join(NAME).display());
    println!("cargo:rustc-link-search=native={}", folder.display());
    println!("cargo:rustc-link-lib=static=usbdisk_c");
}

//! Where ROSSINHIU_BEFORE names the archive of an earlier commit it is linked too, each of its functions under another name.

use std::path::Path;
use std::process::Command;

/// The header's functions, without the number of the layout.
const FUNCTIONS: [&str; 13] = [
    "fresh",
    "gaps",
    "open",
    "offer",
    "offer_all",
    "offer_pieces",
    "earliest",
    "take_back",
    "status",
    "restore",
    "stretch",
    "list_part",
    "console",
];

/// The layouts whose structs are those of src/before.rs, but for bytes between fields.
const LAYOUTS: [u32; 1] = [4];

/// Which of them an archive has, by its names.
fn layout_of(archive: &str) -> u32 {
    let bytes = std::fs::read(archive).expect("an archive that can be read");
    let has = |name: &str| bytes.windows(name.len()).any(|w| w == name.as_bytes());
    let mut layouts = LAYOUTS.into_iter();
    layouts
        .find(|layout| has(&format!("rossinhiu_fresh_{layout}\0")))
        .expect("an archive of a layout that is read here")
}

fn variable(name: &str) -> Option<String> {
    println!("cargo:rerun-if-env-changed={name}");
    std::env::var(name).ok().filter(|value| !value.is_empty())
}

/// What renames symbols in archives of the processor that this is built for.
fn objcopy() -> String {
    let arch = std::env::var("CARGO_CFG_TARGET_ARCH").unwrap();
    let own = if arch == std::env::consts::ARCH {
        "objcopy".to_string()
    } else {
        format!("{arch}-linux-gnu-objcopy")
    };
    variable("ROSSINHIU_OBJCOPY").unwrap_or(own)
}

fn main() {
    println!("cargo:rerun-if-changed=build.rs");
    println!("cargo:rustc-check-cfg=cfg(before)");
    let Some(archive) = variable("ROSSINHIU_BEFORE") else {
        return;
    };
    println!("cargo:rerun-if-changed={archive}");
    let folder = std::env::var("OUT_DIR").unwrap();
    let mut command = Command::new(objcopy());
    let layout = layout_of(&archive);
    for name in FUNCTIONS {
        let name = format!("rossinhiu_{name}");
        command.arg(format!("--redefine-sym={name}_{layout}={name}_before"));
    }
    command.arg(&archive);
    command.arg(Path::new(&folder).join("libcapi_before.a"));
    let done = command.status();
    assert!(done.is_ok_and(|s| s.success()), "{command:?} failed");
    println!("cargo:rustc-link-search=native={folder}");
    println!("cargo:rustc-link-lib=static=capi_before");
    println!("cargo:rustc-cfg=before");
}

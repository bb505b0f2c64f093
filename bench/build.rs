//! Links the proved library, and puts PADDING bytes before all code, so that one source gives several placements.
use std::env;
use std::fs;
use std::path::Path;

include!("../native/link.rs");

fn main() {
    link_library();
    println!("cargo:rerun-if-env-changed=PADDING");
    let padding = env::var("PADDING").map_or(0, |n| n.parse().expect("PADDING is a number"));
    let out = env::var("OUT_DIR").expect("cargo sets it");
    fs::write(Path::new(&out).join("padding.rs"), code(padding)).expect("OUT_DIR can be written");
}

/// A function that runs through its padding, so that has to be instructions that do nothing.
fn code(padding: u32) -> String {
    assert!(padding % 4 == 0, "PADDING is a multiple of 4");
    let arch = env::var("CARGO_CFG_TARGET_ARCH").expect("cargo sets it");
    let fill = match arch.as_str() {
        "x86_64" => format!(".fill {padding}, 1, 0x90"),
        "aarch64" => format!(".fill {}, 4, 0xd503201f", padding / 4),
        _ => panic!("no padding is known for {arch}"),
    };
    format!("std::arch::global_asm!(\".globl padding\", \"padding: {fill}\", \"ret\");\n")
}

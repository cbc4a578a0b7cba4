//! Takes the fifteen dense kernels of control-rs's `DefaultBlas`, unmodified, out of the published
//! source, and looks which functions of the C interface are there to be linked.

use std::path::{Path, PathBuf};
use std::process::Command;
use std::{env, fs};

/// The published source, seen from this directory.
const SOURCE: &str = "../../shared/docs/src/src--src--math--";

/// FNV-1a of the functions taken, for control-rs at commit 4515a5ec45.
const FINGERPRINT: u64 = 0x3da0_22f9_a6d9_b75a;

/// The static library with the C interface, seen from this directory.
const ARCHIVE: &str = "../target/libzirve_blas.a";

const ITEMS: [&str; 3] = ["pub mod level2 {", "pub mod level3 {", "pub struct DefaultBlas;"];

const IMPLS: [&str; 15] = [
    "level2::Gemv<",
    "level2::Hemv<",
    "level2::Her<",
    "level2::Her2<",
    "level2::Trmv<",
    "level2::Trsv<",
    "level3::Gemm<",
    "level3::Symm<",
    "level3::Hemm<",
    "level3::Syrk<",
    "level3::Herk<",
    "level3::Syr2k<",
    "level3::Her2k<",
    "level3::Trmm<",
    "level3::Trsm<",
];

const FUNCTIONS: [&str; 31] = [
    "tri_is_upper",
    "vec_coord",
    "trsv_row",
    "in_triangle",
    "trans_idx",
    "storage_elem",
    "scale_dense",
    "scale_triangle",
    "symm_left",
    "symm_right",
    "hemm_left",
    "hemm_right",
    "syrk_update",
    "herk_update",
    "herk_accumulate",
    "syr2k_update",
    "her2k_dot",
    "her2k_update",
    "trmm_tri_elem",
    "trmm_left_elem",
    "trmm_left",
    "trmm_right_elem",
    "trmm_right",
    "trsm_diag_solve",
    "trsm_a_elem",
    "trsm_left_upper_col",
    "trsm_left_lower_col",
    "trsm_left",
    "trsm_right_upper_col",
    "trsm_right_lower_col",
    "trsm_right",
];

const ROUTINES: [&str; 15] = [
    "gemv", "hemv", "her", "her2", "trmv", "trsv", "gemm", "symm", "hemm", "syrk", "herk", "syr2k", "her2k", "trmm",
    "trsm",
];

/// The card functions.
const CARDS: [&str; 3] = ["zb_card_read", "zb_dcard_write", "zb_zcard_write"];

fn main() {
    let here = PathBuf::from(env::var("CARGO_MANIFEST_DIR").unwrap());
    println!("cargo:rerun-if-changed=build.rs");
    println!("cargo:rustc-check-cfg=cfg(reference, capi, netlib)");
    let source = |name: &str| {
        let path = here.join(format!("{SOURCE}{name}.rs.txt"));
        println!("cargo:rerun-if-changed={}", path.display());
        fs::read_to_string(path).ok()
    };
    if let (Some(subprograms), Some(storage), Some(ops)) = (source("subprograms"), source("storage"), source("ops")) {
        take("default_blas.rs", kernels(&subprograms));
        take("place.rs", places(&storage));
        take("ops.rs", float_operations(&ops));
        println!("cargo:rustc-cfg=reference");
    } else {
        println!("cargo:warning=../shared/docs/src is not there, so there is no oracle; skipped");
    }
    let archive = env::var("ZB_ARCHIVE").map_or_else(|_| here.join(ARCHIVE), PathBuf::from);
    println!("cargo:rerun-if-env-changed=ZB_ARCHIVE");
    link_interface(&archive);
    link_netlib();
}

/// Writes what is taken to OUT_DIR.
fn take(name: &str, text: String) {
    fs::write(PathBuf::from(env::var("OUT_DIR").unwrap()).join(name), text).unwrap();
}

/// The kernels, with the traits that they implement and the functions that they call.
fn kernels(source: &str) -> String {
    let items = top_level_items(source);
    let mut taken = String::new();
    for head in ITEMS {
        taken.push_str(beginning(&items, head));
    }
    for name in FUNCTIONS {
        taken.push_str(function(&items, name));
    }
    for name in IMPLS {
        taken.push_str(the_only(&items, name, |item| {
            item.split_once("for DefaultBlas").is_some_and(|(head, _)| head.contains(name))
        }));
    }
    if fingerprint(&taken) != FINGERPRINT {
        println!("cargo:warning=the kernels are not those of commit 4515a5ec45 ({:#018x})", fingerprint(&taken));
    }
    taken
}

/// control-rs's own `offset` and its test of a window, which document 01 replaces.
fn places(source: &str) -> String {
    let items = top_level_items(source);
    let storage = beginning(&items, "pub unsafe trait DenseStorage<T> {");
    let offset = storage.lines().skip_while(|line| !line.starts_with("    fn offset("));
    let offset: Vec<&str> = offset.take_while(|line| *line != "    }").collect();
    let strides = "fn r_stride(&self) -> isize;\nfn c_stride(&self) -> isize;";
    format!(
        "pub trait Offset {{\n{strides}\n{}\n}}\n}}\n{}",
        offset.join("\n"),
        function(&items, "strided_window_fits")
    )
}

/// control-rs's own operations on floats.
fn float_operations(source: &str) -> String {
    let items = top_level_items(source);
    let traits = ["Add", "Sub", "Mul", "Div", "Neg"].map(|name| format!("pub trait Saturating{name}: "));
    let mut taken: String = traits.iter().map(|head| beginning(&items, head)).collect();
    taken.push_str(beginning(&items, "macro_rules! saturating_float_impl {"));
    taken.push_str(beginning(&items, "saturating_float_impl!("));
    taken
}

/// The item with a line that begins so.
fn beginning<'a>(items: &'a [String], head: &str) -> &'a str {
    the_only(items, head, |item| item.lines().any(|line| line.starts_with(head)))
}

fn function<'a>(items: &'a [String], name: &str) -> &'a str {
    the_only(items, name, |item| item.lines().any(|line| declares(line, name)))
}

/// Does the line begin the declaration of the function?
fn declares(line: &str, name: &str) -> bool {
    let line = line.strip_prefix("const ").unwrap_or(line);
    let Some(rest) = line.strip_prefix("fn ").and_then(|line| line.strip_prefix(name)) else { return false };
    rest.starts_with('(') || rest.starts_with('<')
}

/// The source cut after each line that ends a top-level item: a brace in the first column, or a
/// line in the first column that ends in a semicolon.
fn top_level_items(text: &str) -> Vec<String> {
    let mut items = vec![String::new()];
    for line in text.lines() {
        let item = items.last_mut().unwrap();
        item.push_str(line);
        item.push('\n');
        let inside = line.starts_with([' ', '/', '#']);
        if line == "}" || (!inside && line.ends_with(';')) {
            items.push(String::new());
        }
    }
    items
}

/// The item that meets the test; there has to be one and no other.
fn the_only<'a>(items: &'a [String], name: &str, test: impl Fn(&str) -> bool) -> &'a str {
    let mut found = items.iter().filter(|item| test(item));
    let item = found.next().unwrap_or_else(|| panic!("the source has no {name}"));
    assert!(found.next().is_none(), "the source has {name} twice");
    item
}

fn fingerprint(text: &str) -> u64 {
    text.bytes().fold(0xcbf2_9ce4_8422_2325, |hash, byte| (hash ^ u64::from(byte)).wrapping_mul(0x100_0000_01b3))
}

/// Links the archive, where it is, and sets one cfg for each of its functions.
fn link_interface(archive: &Path) {
    println!("cargo:rerun-if-changed={}", archive.display());
    for routine in ROUTINES {
        for kind in ["d", "s", "z"] {
            println!("cargo:rustc-check-cfg=cfg(zb_{kind}{routine})");
        }
    }
    for name in CARDS {
        println!("cargo:rustc-check-cfg=cfg({name})");
    }
    let Ok(listing) = Command::new("nm").arg("-g").arg("--defined-only").arg(archive).output() else { return };
    if !listing.status.success() {
        return;
    }
    let listing = String::from_utf8_lossy(&listing.stdout).into_owned();
    let mut linked = false;
    for name in listing.lines().filter_map(|line| line.split_whitespace().last()) {
        let routine = name.strip_prefix("zb_").filter(|name| name.is_ascii()).and_then(|name| name.get(1..));
        if routine.is_some_and(|routine| ROUTINES.contains(&routine)) || CARDS.contains(&name) {
            println!("cargo:rustc-cfg={name}");
            linked = true;
        }
    }
    if linked {
        println!("cargo:rustc-cfg=capi");
        println!("cargo:rustc-link-search=native={}", archive.parent().unwrap().display());
        println!("cargo:rustc-link-lib=static=zirve_blas");
    }
}

/// Links Netlib's reference BLAS, where ZB_NETLIB names its libblas.a.
fn link_netlib() {
    println!("cargo:rerun-if-env-changed=ZB_NETLIB");
    let library = PathBuf::from(env::var("ZB_NETLIB").unwrap_or_default());
    if library.is_file() {
        println!("cargo:rerun-if-changed={}", library.display());
        println!("cargo:rustc-cfg=netlib");
        println!("cargo:rustc-link-search=native={}", library.parent().unwrap().display());
        println!("cargo:rustc-link-lib=static:-bundle=blas");
    }
}

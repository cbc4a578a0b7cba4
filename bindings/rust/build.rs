//! Links the archive with the kernels: the file that ZB_ARCHIVE names, by its absolute path, else
//! target/libzirve_blas.a of this repository. The file may have any name: the linker is given a copy under a name
//! of its own. Where there is no such file, or it is not an archive of these kernels, one line says so and the
//! build fails.

use std::path::{Path, PathBuf};
use std::{env, fs};

const BUILT: &str = "../../target/libzirve_blas.a";

/// The linker's name of the copy.
const NAME: &str = "zirve_blas_archive";

/// What an archive that holds its own members begins with.
const MAGIC: &[u8] = b"!<arch>\n";

/// A function of every archive, that of f64 alone among them.
const FUNCTION: &[u8] = b"zb_dgemv";

fn main() {
    let here = PathBuf::from(env::var_os("CARGO_MANIFEST_DIR").unwrap());
    let archive = here.join(env::var_os("ZB_ARCHIVE").unwrap_or(BUILT.into()));
    println!("cargo::rerun-if-changed=build.rs");
    println!("cargo::rerun-if-env-changed=ZB_ARCHIVE");
    println!("cargo::rerun-if-changed={}", archive.display());
    match read(&archive) {
        Ok(bytes) => link(&bytes),
        Err(why) => println!("cargo::error={} {why}", archive.display()),
    }
}

/// The archive's bytes, or why it will not do.
fn read(archive: &Path) -> Result<Vec<u8>, String> {
    let wanted = "run make archive at the root of the repository, or set ZB_ARCHIVE to the absolute path of an archive";
    let bytes = fs::read(archive).map_err(|error| format!("cannot be read: {error}; {wanted}"))?;
    if !bytes.starts_with(MAGIC) {
        return Err(format!("is not an ar archive; {wanted}"));
    }
    if !bytes.windows(FUNCTION.len()).any(|part| part == FUNCTION) {
        return Err(format!("has no function {}; {wanted}", String::from_utf8_lossy(FUNCTION)));
    }
    Ok(bytes)
}

fn link(bytes: &[u8]) {
    let out = PathBuf::from(env::var_os("OUT_DIR").unwrap());
    fs::write(out.join(format!("lib{NAME}.a")), bytes).unwrap();
    println!("cargo::rustc-link-search=native={}", out.display());
    println!("cargo::rustc-link-lib=static={NAME}");
}

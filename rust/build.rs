//! Links the library: the archive of the target in lib/ next to this file, which a release has, else that of IS_ICE_LIB, else that of
//! `pkg-config is_ice`. The packages in serde/ and str0m/ have this script too; for the one in str0m/ it sets `str0m_types`, by which the
//! sources take the types of the crate `str0m_proto`. A feature would not do: str0m depends on this crate without its default features.

use std::path::{Path, PathBuf};
use std::process::{Command, exit};

/// The folder of the package that is built.
fn package() -> PathBuf {
    PathBuf::from(std::env::var_os("CARGO_MANIFEST_DIR").unwrap_or_default())
}

/// The archive of a release of this crate, for the system and processor of the target.
fn released() -> Option<PathBuf> {
    let package = package();
    let folder = package.join(if package.ends_with("serde") || package.ends_with("str0m") { "../lib" } else { "lib" });
    let of_target = |name| std::env::var(format!("CARGO_CFG_TARGET_{name}")).ok();
    let archive = folder.join(format!("{}-{}/libis_ice.a", of_target("OS")?, of_target("ARCH")?));
    archive.exists().then_some(archive)
}

/// The archive that `c/run install` installed, if PKG_CONFIG_PATH has the folder of its is_ice.pc.
fn installed() -> Option<PathBuf> {
    let output = Command::new("pkg-config").args(["--variable=libdir", "is_ice"]).output().ok()?;
    let folder = String::from_utf8(output.stdout).ok()?;
    output.status.success().then(|| Path::new(folder.trim()).join("libis_ice.a"))
}

/// Ends the build with what is wrong, and with what to do.
fn stop(why: &str) -> ! {
    println!("cargo::error=the ICE library is missing: {why}");
    println!("cargo::error=run `c/run install ~/ice`, and build with IS_ICE_LIB=$HOME/ice/lib/libis_ice.a");
    exit(1)
}

/// The name of an archive for the linker: its file name without "lib" and ".a".
fn link_name(archive: &Path) -> Option<&str> {
    archive.file_name()?.to_str()?.strip_prefix("lib")?.strip_suffix(".a")
}

fn main() {
    println!("cargo:rustc-check-cfg=cfg(str0m_types)");
    if package().ends_with("str0m") {
        println!("cargo:rustc-cfg=str0m_types");
    }
    println!("cargo:rerun-if-env-changed=IS_ICE_LIB");
    println!("cargo:rerun-if-env-changed=PKG_CONFIG_PATH");
    let named = || std::env::var_os("IS_ICE_LIB").map(PathBuf::from);
    let archive = released().or_else(named).or_else(installed);
    let archive = archive.unwrap_or_else(|| stop("IS_ICE_LIB is not set, and pkg-config does not find is_ice"));
    let Ok(path) = archive.canonicalize() else {
        stop(&format!("{} does not exist", archive.display()));
    };
    let (Some(folder), Some(name)) = (path.parent(), link_name(&path)) else {
        stop(&format!("{} is not a file libNAME.a", archive.display()));
    };
    println!("cargo:rerun-if-changed={}", path.display());
    println!("cargo:rustc-link-search=native={}", folder.display());
    println!("cargo:rustc-link-lib=static={name}");
    if name == "is_c" {
        // the kit builds this archive without malloc, realloc and free, which are in libc_c next to it
        println!("cargo:rustc-link-lib=static=libc_c");
    }
}

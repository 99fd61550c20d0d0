//! Finds the archive of the proved layer for the target that is compiled for, and has it linked.
//!
//! It looks in the folder that AHOZURIME_ARCHIVE names; with none named, where `tools/archive`
//! leaves it in the repository; and then, where the target is this machine, where pkg-config finds
//! it installed in a version that fits.

use std::env;
use std::fs;
use std::path::{Path, PathBuf};
use std::process::{exit, Command};

const NAMED: &str = "AHOZURIME_ARCHIVE";
const ARCHIVE: &str = "libahozurime.a";

fn main() {
    println!("cargo::rerun-if-changed=build.rs");
    println!("cargo::rerun-if-env-changed={NAMED}");
    let (arch, machine) = target().unwrap_or_else(|why| stop(&why));
    let folder = found(arch).unwrap_or_else(|why| stop(&why));
    let archive = folder.join(ARCHIVE);
    if let Err(why) = compiled_for(&archive, arch, machine) {
        stop(&why);
    }
    println!("cargo::rerun-if-changed={}", archive.display());
    println!("cargo::rustc-link-search=native={}", folder.display());
    println!("cargo::rustc-link-lib=static=ahozurime");
    println!("cargo::metadata=archive={}", archive.display());
}

fn stop(why: &str) -> ! {
    for line in why.lines() {
        println!("cargo::error={line}");
    }
    exit(1);
}

fn cargo_says(what: &str) -> String {
    env::var(what).unwrap_or_default()
}

/// The target's name among the archives, and the number that its objects carry for the machine. A
/// target that hands arguments over in other registers than the archive expects them in is refused:
/// it might link, and calls would go wrong.
fn target() -> Result<(&'static str, u16), String> {
    let os = cargo_says("CARGO_CFG_TARGET_OS");
    let features = cargo_says("CARGO_CFG_TARGET_FEATURE");
    let has = |feature| features.split(',').any(|one| one == feature);
    // These stay soft where a flag of the compiler adds the feature.
    let soft = cargo_says("CARGO_CFG_TARGET_ABI") == "softfloat"
        || cargo_says("TARGET") == "x86_64-unknown-none";
    let usual = !soft
        && !["windows", "uefi", "cygwin"].contains(&os.as_str())
        && cargo_says("CARGO_CFG_TARGET_VENDOR") != "apple"
        && cargo_says("CARGO_CFG_TARGET_ENDIAN") == "little"
        && cargo_says("CARGO_CFG_TARGET_POINTER_WIDTH") == "64";
    match cargo_says("CARGO_CFG_TARGET_ARCH").as_str() {
        "x86_64" if usual && has("sse2") => Ok(("x86_64", 62)),
        "aarch64" if usual && has("neon") => Ok(("aarch64", 183)),
        _ => Err(format!(
            "there is no archive for {}: the layer is compiled for x86_64 with SSE2 and for aarch64 \
             with NEON,\n\
             as ELF objects with 64-bit pointers, low octet first, by the System V and the Arm \
             calling convention;\n\
             targets of Windows, UEFI, Cygwin and Apple, and those with soft floats, are not such",
            cargo_says("TARGET")
        )),
    }
}

/// The folder that has the archive.
fn found(arch: &str) -> Result<PathBuf, String> {
    let package = PathBuf::from(cargo_says("CARGO_MANIFEST_DIR"));
    if let Some(named) = env::var_os(NAMED).filter(|named| !named.is_empty()) {
        let folder = package.join(named);
        return if folder.join(ARCHIVE).is_file() {
            Ok(folder)
        } else {
            Err(format!("{NAMED} names {}, and there is no {ARCHIVE} in it", folder.display()))
        };
    }
    let made = package.join("../../target/archive").join(arch);
    if made.join(ARCHIVE).is_file() {
        return Ok(made);
    }
    // One is installed for this machine and for no other.
    let here = cargo_says("HOST") == cargo_says("TARGET");
    if let Some(folder) = if here { installed()? } else { None } {
        return Ok(folder);
    }
    let install = "install it by `make install`, so that `pkg-config ahozurime` finds it;\n";
    Err(format!(
        "there is no {ARCHIVE} for {arch}. Do one of these:\n\
         run `tools/archive {arch}` in the repository of Ahozurime;\n\
         {}let the environment variable {NAMED} name the folder that has it",
        if here { install } else { "" }
    ))
}

/// Where an installed archive lies, if there is one. One of a version that this package is not
/// written for is refused.
fn installed() -> Result<Option<PathBuf>, String> {
    println!("cargo::rerun-if-env-changed=PKG_CONFIG_PATH");
    let Some(version) = pkg_config(&["--modversion", "ahozurime"]) else { return Ok(None) };
    let major: u32 = env!("CARGO_PKG_VERSION_MAJOR").parse().expect("a number");
    let minor = env!("CARGO_PKG_VERSION_MINOR");
    let (least, next) = (format!("{major}.{minor}"), major + 1);
    let fits = [format!("ahozurime >= {least}"), format!("ahozurime < {next}")];
    if pkg_config(&["--exists", &fits[0], &fits[1]]).is_none() {
        return Err(format!(
            "the installed ahozurime is of version {version}, and this package is written for \
             {least} or later, below {next}"
        ));
    }
    let folder = pkg_config(&["--variable=libdir", "ahozurime"]).map(PathBuf::from);
    Ok(folder.filter(|folder| folder.join(ARCHIVE).is_file()))
}

/// What pkg-config says; none where it fails, or is not there.
fn pkg_config(arguments: &[&str]) -> Option<String> {
    let said = Command::new("pkg-config").args(arguments).output().ok()?;
    let text = String::from_utf8(said.stdout).ok()?;
    said.status.success().then(|| text.trim().to_string())
}

/// An archive for another machine is refused here, where it can be said plainly. The number for the
/// machine stands 18 octets behind the start of the first object.
fn compiled_for(archive: &Path, arch: &str, machine: u16) -> Result<(), String> {
    let octets = fs::read(archive)
        .map_err(|error| format!("{} cannot be read: {error}", archive.display()))?;
    let object = octets.windows(4).position(|four| four == b"\x7FELF");
    let says = object.and_then(|at| octets.get(at + 18..at + 20));
    if says == Some(&machine.to_le_bytes()[..]) {
        Ok(())
    } else {
        Err(format!("{} is no archive for {arch}", archive.display()))
    }
}

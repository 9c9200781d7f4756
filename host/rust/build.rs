//! Links the proved archive: target/staticlib/libhost.a, or libdoorsedge.a where it is installed.

use std::path::{Path, PathBuf};
use std::process::{Command, exit};
use std::{env, fs};

fn main() {
    for name in ["DOORSEDGE_ARCHIVE", "DOORSEDGE_PREFIX", "DOORSEDGE_PARTIAL", "PKG_CONFIG_PATH"] {
        println!("cargo:rerun-if-env-changed={name}");
    }
    let mut missing = vec![];
    if env::var_os("CARGO_FEATURE_MOCK").is_none() {
        missing = link();
    }
    let mut text = format!("/// Entries that the archive lacks.\npub const MISSING: &[&str] = &{missing:?};\n");
    for entry in missing {
        text += &format!("#[unsafe(no_mangle)]\nextern \"C\" fn {entry}() -> u64 {{\n    super::ABSENT\n}}\n");
    }
    let out = PathBuf::from(env::var_os("OUT_DIR").unwrap()).join("missing.rs");
    fs::write(out, text).unwrap();
}

/// Where the archive lies, under which name, and the header beside it.
struct Place {
    dir: PathBuf,
    name: &'static str,
    header: PathBuf,
}

impl Place {
    fn archive(&self) -> PathBuf {
        self.dir.join(format!("lib{}.a", self.name))
    }
}

/// As `tools/archive` made it, in this folder.
fn built(dir: PathBuf, here: &Path) -> Place {
    Place { dir, name: "host", header: here.join("../../include/doorsedge.h") }
}

/// As `./install` laid it, under this prefix.
fn installed(prefix: PathBuf) -> Place {
    Place { dir: prefix.join("lib"), name: "doorsedge", header: prefix.join("include/doorsedge.h") }
}

/// The prefix of an installed archive that pkg-config knows.
fn known_prefix() -> Option<PathBuf> {
    let said = Command::new("pkg-config").args(["--variable=prefix", "doorsedge"]).output().ok()?;
    let prefix = String::from_utf8(said.stdout).ok()?;
    (said.status.success() && !prefix.trim().is_empty()).then(|| PathBuf::from(prefix.trim()))
}

/// Where DOORSEDGE_ARCHIVE or DOORSEDGE_PREFIX says; else in this tree, or where pkg-config says.
fn place(here: &Path) -> Place {
    if let Some(dir) = env::var_os("DOORSEDGE_ARCHIVE") {
        return built(dir.into(), here);
    }
    if let Some(prefix) = env::var_os("DOORSEDGE_PREFIX") {
        return installed(prefix.into());
    }
    let own = built(here.join("../../target/staticlib"), here);
    if own.archive().exists() {
        return own;
    }
    known_prefix().map_or(own, installed)
}

/// Has the archive linked, and answers which entries it lacks: none, unless DOORSEDGE_PARTIAL allows it.
fn link() -> Vec<String> {
    let here = PathBuf::from(env::var_os("CARGO_MANIFEST_DIR").unwrap());
    let place = place(&here);
    let archive = place.archive();
    println!("cargo:rerun-if-changed={}", archive.display());
    if !archive.exists() {
        eprintln!("doorsedge: {} is missing.", archive.display());
        eprintln!("Make it with `tools/archive`, or install it with `./install`,");
        eprintln!("or set DOORSEDGE_ARCHIVE to the folder that has it, or DOORSEDGE_PREFIX to where one is installed,");
        eprintln!("or build with the feature `mock`, over the plain Rust model: nothing is proved of that.");
        exit(1);
    }
    println!("cargo:rustc-link-search=native={}", place.dir.display());
    println!("cargo:rustc-link-lib=static={}", place.name);
    let missing = lacking(&archive, &place.header);
    if !missing.is_empty() && env::var_os("DOORSEDGE_PARTIAL").is_none() {
        eprintln!("doorsedge: {} lacks {}.", archive.display(), missing.join(", "));
        eprintln!("DOORSEDGE_PARTIAL=1 links it all the same; a call of a missing entry then ends the program.");
        exit(1);
    }
    missing
}

/// The entries of the header that the archive does not define. Where `nm` is not at hand, the linker will say.
fn lacking(archive: &Path, header: &Path) -> Vec<String> {
    println!("cargo:rerun-if-changed={}", header.display());
    let (Ok(defined), Ok(header)) = (Command::new("nm").arg(archive).output(), fs::read_to_string(header)) else {
        return vec![];
    };
    let defined = String::from_utf8_lossy(&defined.stdout).into_owned();
    let is_defined = |entry: &str| defined.lines().any(|line| line.ends_with(&format!(" T {entry}")));
    let entries =
        header.lines().filter_map(|line| line.strip_prefix("uint64_t ")?.split_once('(').map(|(name, _)| name));
    entries.filter(|entry| !is_defined(entry)).map(str::to_owned).collect()
}

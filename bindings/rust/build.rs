//! Finds libsmclp: in the folder that SMCLP_LIB_DIR names, else where pkg-config has it. The archive is linked where there is one, unless SMCLP_DYNAMIC is set.

use std::env;
use std::path::{Path, PathBuf};
use std::process::{exit, Command};

const ARCHIVE: &str = "libsmclp.a";
const SHARED: &str = "libsmclp.so";

/// What decides where the library is found.
const VARIABLES: [&str; 6] = [
    "SMCLP_LIB_DIR",
    "SMCLP_DYNAMIC",
    "PKG_CONFIG",
    "PKG_CONFIG_PATH",
    "PKG_CONFIG_LIBDIR",
    "PKG_CONFIG_SYSROOT_DIR",
];

fn main() {
    println!("cargo:rerun-if-changed=build.rs");
    for variable in VARIABLES {
        println!("cargo:rerun-if-env-changed={variable}");
    }
    let found = match set("SMCLP_LIB_DIR") {
        Some(folder) => named(&folder),
        None => known(),
    };
    match found {
        Ok(library) => library.link(),
        Err(why) => fail(&why),
    }
}

/// A variable's value, where it has one.
fn set(variable: &str) -> Option<String> {
    env::var(variable).ok().filter(|value| !value.is_empty())
}

fn is_dynamic() -> bool {
    set("SMCLP_DYNAMIC").map_or(false, |value| value != "0")
}

/// What is looked for in a folder.
fn wanted() -> String {
    match is_dynamic() {
        true => format!("{SHARED} (as SMCLP_DYNAMIC is set)"),
        false => format!("{ARCHIVE} or {SHARED}"),
    }
}

/// A folder's library, and how it is linked.
struct Library {
    folder: PathBuf,
    file: &'static str,
    kind: &'static str,
}

impl Library {
    fn of(folder: &Path) -> Option<Library> {
        let has = |file| folder.join(file).is_file();
        let (file, kind) = if has(ARCHIVE) && !is_dynamic() {
            (ARCHIVE, "static")
        } else if has(SHARED) {
            (SHARED, "dylib")
        } else {
            return None;
        };
        let folder = folder.to_path_buf();
        Some(Library { folder, file, kind })
    }

    fn link(&self) {
        let Library { folder, file, kind } = self;
        println!("cargo:rerun-if-changed={}", folder.join(file).display());
        println!("cargo:rustc-link-search=native={}", folder.display());
        println!("cargo:rustc-link-lib={kind}=smclp");
    }
}

/// The library in the folder of SMCLP_LIB_DIR. A path that is not absolute starts at this crate's folder, where a build script runs.
fn named(folder: &str) -> Result<Library, String> {
    let folder = env::current_dir().unwrap_or_default().join(folder);
    Library::of(&folder).ok_or(format!(
        "SMCLP_LIB_DIR is set, and so it was looked for there alone; there is no {} in {}",
        wanted(),
        folder.display()
    ))
}

/// The library where pkg-config has it.
fn known() -> Result<Library, String> {
    let not_set = "SMCLP_LIB_DIR is not set";
    if env::var("HOST") != env::var("TARGET") && set("PKG_CONFIG").is_none() {
        return Err(format!(
            "{not_set}, and pkg-config was not asked: what it has is for another machine than is built for (PKG_CONFIG can name one that has the right ones)"
        ));
    }
    // -L comes with a system root before it, but is left out for a folder that every linker looks in
    let flags = pkg_config("--libs-only-L").map_err(|why| format!("{not_set}, and {why}"))?;
    let variable = pkg_config("--variable=libdir").unwrap_or_default();
    let listed = flags.split_whitespace();
    let listed = listed.filter_map(|flag| flag.strip_prefix("-L"));
    let folders: Vec<&str> = listed.chain([variable.trim()]).collect();
    let mut found = folders.iter().map(Path::new).filter_map(Library::of);
    found.next().ok_or(format!(
        "{not_set}; pkg-config knows smclp, but there is no {} in {}",
        wanted(),
        folders.join(" or ")
    ))
}

/// What pkg-config prints for smclp, or why it prints nothing.
fn pkg_config(what: &str) -> Result<String, String> {
    let program = set("PKG_CONFIG").unwrap_or("pkg-config".to_string());
    let asked = Command::new(&program).args([what, "smclp"]).output();
    let output = asked.map_err(|why| format!("{program} can't be run: {why}"))?;
    if output.status.success() {
        return Ok(String::from_utf8_lossy(&output.stdout).into_owned());
    }
    let said = String::from_utf8_lossy(&output.stderr);
    let first = said.lines().next().unwrap_or("nothing");
    Err(format!("{program} does not know smclp; it says: {first}"))
}

fn fail(why: &str) -> ! {
    eprintln!("smclp: the library libsmclp was not found");
    eprintln!("smclp: {why}");
    eprintln!("smclp: set SMCLP_LIB_DIR to the folder that has {ARCHIVE} or {SHARED},");
    eprintln!("smclp: or install the library, and set PKG_CONFIG_PATH to the folder that has its smclp.pc");
    exit(1)
}

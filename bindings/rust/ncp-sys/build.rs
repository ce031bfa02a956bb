// SPDX-License-Identifier: MIT
//! Finds libncp, or makes it. The first of these that is there:
//!
//! - the library in the folder that `NCP_LIB_DIR` names;
//! - in the repository that of prebuilt/, which has to be built from its sources;
//! - an installed one of this version, where `pkg-config` finds it;
//! - `c/ncp.c`, as the archive of a release has it, compiled here.
use std::env::var;
use std::fs::{read_dir, remove_file};
use std::path::{Path, PathBuf};
use std::process::{exit, Command};

const VERSION: &str = env!("CARGO_PKG_VERSION");

/// Ends the build with a sentence.
fn fail(why: &str) -> ! {
    eprintln!("ncp-sys: {why}");
    exit(1)
}

/// A variable that Cargo sets for each build script.
fn of_cargo(name: &str) -> String {
    var(name).unwrap_or_else(|_| fail(&format!("Cargo sets no {name}")))
}

/// A variable of the user. If it changes, this runs again.
fn of_user(name: &str) -> Option<String> {
    println!("cargo:rerun-if-env-changed={name}");
    var(name).ok().filter(|it| !it.trim().is_empty())
}

/// A variable of the user, for this target alone or for all: `CC_aarch64_unknown_linux_gnu`, `TARGET_CC`, or `CC`.
fn of_target(name: &str) -> Option<String> {
    let target = of_cargo("TARGET");
    let side = if is_cross() { "TARGET" } else { "HOST" };
    of_user(&format!("{name}_{target}"))
        .or_else(|| of_user(&format!("{name}_{}", target.replace('-', "_"))))
        .or_else(|| of_user(&format!("{side}_{name}")))
        .or_else(|| of_user(name))
}

fn is_cross() -> bool {
    of_cargo("TARGET") != of_cargo("HOST")
}

// --- a library that is there

/// The library in a folder: the archive, or else the shared one.
fn library_in(folder: &Path) -> Option<PathBuf> {
    ["libncp.a", "libncp.so"].into_iter().map(|it| folder.join(it)).find(|it| it.is_file())
}

/// Links the library in a folder. If it changes, this runs again.
fn link(folder: &Path) {
    let Some(library) = library_in(folder) else { fail(&format!("{} has no libncp.a and no libncp.so", folder.display())) };
    let kind = if library.extension().is_some_and(|it| it == "a") { "static" } else { "dylib" };
    println!("cargo:rerun-if-changed={}", library.display());
    println!("cargo:rustc-link-search=native={}", folder.display());
    println!("cargo:rustc-link-lib={kind}=ncp");
}

/// The top of the repository, if this crate is there: a copy of it elsewhere trusts no folder.
fn repository() -> Option<PathBuf> {
    let here = Path::new(&var("CARGO_MANIFEST_DIR").ok()?).canonicalize().ok()?;
    let top = here.ancestors().nth(3)?;
    let marks = ["crates.txt", "include/ncp.h", "tools/prebuild"];
    (here == top.join("bindings/rust/ncp-sys") && marks.iter().all(|it| top.join(it).is_file())).then(|| top.to_path_buf())
}

/// What the libraries of prebuilt/ are made of, and they: a change of one is looked at.
fn look_at_changes(top: &Path) {
    for each in ["crates.txt", "include", "prebuilt", "tools/prebuild"] {
        println!("cargo:rerun-if-changed={}", top.join(each).display());
    }
    for it in read_dir(top.join("crates")).into_iter().flatten().flatten() {
        for part in ["src", "specs", "proofs"].iter().map(|part| it.path().join(part)).filter(|part| part.is_dir()) {
            println!("cargo:rerun-if-changed={}", part.display());
        }
    }
}

/// The folder with the library of the repository.
fn prebuilt(top: &Path) -> PathBuf {
    look_at_changes(top);
    let target = of_cargo("CARGO_CFG_TARGET_ARCH");
    let (at, name) = if target == "x86_64" { (PathBuf::new(), "libncp.a".into()) } else { (PathBuf::from(&target), format!("{target}/libncp.a")) };
    let is_of_these = Command::new(top.join("tools/prebuild")).args(["--has", &name]).output().is_ok_and(|it| it.status.success());
    let folder = top.join("prebuilt").join(at);
    if !is_of_these {
        fail(&format!("{}/libncp.a is not built from the sources of this repository: run tools/prebuild, or set NCP_LIB_DIR", folder.display()));
    }
    folder
}

/// The folders in a line of `pkg-config --libs-only-L`. In the name of a folder a backslash precedes a blank.
fn folders(line: &str) -> Vec<PathBuf> {
    let (mut words, mut signs) = (vec![String::new()], line.trim().chars());
    while let Some(sign) = signs.next() {
        match sign {
            ' ' => words.push(String::new()),
            '\\' => words.last_mut().into_iter().for_each(|it| it.extend(signs.next())),
            _ => words.last_mut().into_iter().for_each(|it| it.push(sign)),
        }
    }
    words.iter().filter_map(|it| it.strip_prefix("-L")).map(PathBuf::from).collect()
}

/// The folder of an installed library of this version. `pkg-config` finds libraries of this machine; for another machine it is asked
/// only if a variable is set for that.
fn installed() -> Option<PathBuf> {
    let program = of_target("PKG_CONFIG");
    let settings: Vec<_> = ["PKG_CONFIG_PATH", "PKG_CONFIG_LIBDIR", "PKG_CONFIG_SYSROOT_DIR", "PKG_CONFIG_ALLOW_CROSS"].into_iter().filter_map(of_target).collect();
    if is_cross() && program.is_none() && settings.is_empty() {
        return None;
    }
    let said = |word| {
        let ran = Command::new(program.as_deref().unwrap_or("pkg-config")).args([word, "ncp"]).env("PKG_CONFIG_ALLOW_SYSTEM_LIBS", "1").output().ok()?;
        ran.status.success().then(|| String::from_utf8_lossy(&ran.stdout).trim().to_string())
    };
    let version = said("--modversion")?;
    if version != VERSION {
        println!("cargo:warning=the installed libncp is version {version}, and this crate is for {VERSION}: it is not used");
        return None;
    }
    folders(&said("--libs-only-L")?).into_iter().find(|it| library_in(it).is_some())
}

// --- a library that is made here

/// A program with its first arguments: those of a variable, or else the usual program, which for another machine is that of its GNU
/// tools, such as `aarch64-linux-gnu-gcc`.
fn tool(name: &str, usual: &str, for_others: &str) -> Vec<String> {
    let Some(named) = of_target(name) else {
        let others = format!("{}-{for_others}", of_cargo("TARGET").replace("-unknown", ""));
        return vec![if is_cross() { others } else { usual.to_string() }];
    };
    if Path::new(&named).is_file() { vec![named] } else { named.split_whitespace().map(str::to_string).collect() }
}

/// Runs a program. If it is not there, or fails, the build ends.
fn run(words: &[String], more: &[String], what: &str) {
    let ran = match Command::new(&words[0]).args(&words[1..]).args(more).output() {
        Ok(ran) => ran,
        Err(error) => fail(&format!(
            "there is no {what} `{}` to make libncp of c/ncp.c ({error}): install one (Debian: gcc), name one by {}, or name a folder that has libncp.a by NCP_LIB_DIR",
            words[0],
            if what == "archiver" { "AR" } else { "CC" },
        )),
    };
    if !ran.status.success() {
        eprint!("{}", String::from_utf8_lossy(&ran.stderr));
        fail(&format!("{} {} ended with {}", words.join(" "), more.join(" "), ran.status));
    }
}

/// The flags of the C compiler: first Cargo's settings, then the flags of the user.
fn flags() -> Vec<String> {
    // Older compilers do not have `z`.
    let mut flags = vec![format!("-O{}", of_cargo("OPT_LEVEL").replace('z', "s"))];
    if var("DEBUG").is_ok_and(|it| !["0", "false", "none"].contains(&it.as_str())) {
        flags.push("-g".to_string());
    }
    if of_cargo("CARGO_CFG_TARGET_OS") != "windows" {
        flags.push("-fPIC".to_string());
    }
    flags.extend(of_target("CFLAGS").unwrap_or_default().split_whitespace().map(str::to_string));
    flags
}

/// Compiles `c/ncp.c`, and links the result.
fn compile() {
    let parts = Path::new(&of_cargo("CARGO_MANIFEST_DIR")).join("c");
    let (source, out) = (parts.join("ncp.c"), PathBuf::from(of_cargo("OUT_DIR")));
    println!("cargo:rerun-if-changed={}", parts.display());
    if !source.is_file() {
        fail(&format!("there is no libncp: NCP_LIB_DIR is not set, pkg-config has no ncp {VERSION}, and there is no {}", source.display()));
    }
    let (object, archive) = (out.join("ncp.o").display().to_string(), out.join("libncp.a"));
    let files = [format!("-I{}", parts.display()), "-c".into(), "-o".into(), object.clone(), source.display().to_string()];
    run(&tool("CC", "cc", "gcc"), &[&flags()[..], &files].concat(), "C compiler");
    // An older archive may have other members.
    let _ = remove_file(&archive);
    run(&tool("AR", "ar", "ar"), &["crs".into(), archive.display().to_string(), object], "archiver");
    println!("cargo:rustc-link-search=native={}", out.display());
    println!("cargo:rustc-link-lib=static=ncp");
}

fn main() {
    if let Some(folder) = of_user("NCP_LIB_DIR") {
        link(Path::new(&folder));
    } else if let Some(top) = repository() {
        link(&prebuilt(&top));
    } else if let Some(folder) = installed() {
        link(&folder);
    } else {
        compile();
    }
}

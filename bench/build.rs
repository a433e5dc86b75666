//! Builds what is linked beside the library: the peers in C, where clang is there,
//! and another build of the library, where TRACKER_OTHER names its folder.

use std::env;
use std::path::{Path, PathBuf};
use std::process::{self, Command};

/// The sources of the peers in C, each c/NAME.c.
const SOURCES: [&str; 2] = ["lists", "pages"];

/// The calls of the library.
const CALLS: [&str; 10] = [
    "check",
    "power_up",
    "step",
    "run",
    "static_power_up",
    "static_run",
    "doubled_size",
    "doubled_kind",
    "double",
    "page",
];

fn main() {
    println!("cargo:rerun-if-changed=build.rs");
    println!("cargo:rustc-check-cfg=cfg(c_peer, other, other_page, other_size, other_static)");
    let out = env::var_os("OUT_DIR").expect("cargo sets OUT_DIR");
    compile_peers(Path::new(&out));
    rename_other(Path::new(&out));
    let rustc = env::var("RUSTC").expect("cargo sets RUSTC");
    let version = version_of(&rustc).expect("the version of rustc");
    println!("cargo:rustc-env=RUSTC_VERSION={version}");
}

/// Compiles the peers in C by clang, or by the compiler that CLANG names. Where
/// there is none they are left out.
fn compile_peers(out: &Path) {
    println!("cargo:rerun-if-env-changed=CLANG");
    for name in SOURCES {
        println!("cargo:rerun-if-changed={}", source(name));
    }
    let clang = env::var("CLANG").unwrap_or_else(|_| "clang".to_string());
    let Some(version) = version_of(&clang) else {
        return;
    };
    for name in SOURCES {
        let object = out.join(name).with_extension("o");
        let mut compile = Command::new(&clang);
        compile.args(["-O3", "-fPIC", "-c", &source(name), "-o"]);
        assert_succeeds(compile.arg(&object));
        println!("cargo:rustc-link-arg-bins={}", object.display());
    }
    println!("cargo:rustc-cfg=c_peer");
    println!("cargo:rustc-env=CLANG_VERSION={version}");
}

/// The source of a peer in C.
fn source(name: &str) -> String {
    format!("c/{name}.c")
}

/// Renames the calls of the other build: tracker_NAME becomes other_NAME.
fn rename_other(out: &Path) {
    println!("cargo:rerun-if-env-changed=TRACKER_OTHER");
    let Some(folder) = env::var_os("TRACKER_OTHER").filter(|path| !path.is_empty()) else {
        return;
    };
    let archive = PathBuf::from(folder).join("libexports.a");
    println!("cargo:rerun-if-changed={}", archive.display());
    let mut rename = Command::new("objcopy");
    for call in CALLS {
        rename.arg(format!("--redefine-sym=tracker_{call}=other_{call}"));
    }
    assert_succeeds(rename.arg(&archive).arg(out.join("libother.a")));
    if has_call(&archive, "tracker_doubled_size") {
        println!("cargo:rustc-cfg=other_size");
    }
    if has_call(&archive, "tracker_static_run") {
        println!("cargo:rustc-cfg=other_static");
    }
    if has_call(&archive, "tracker_page") {
        println!("cargo:rustc-cfg=other_page");
    }
    println!("cargo:rustc-link-search=native={}", out.display());
    println!("cargo:rustc-link-lib=static=other");
    println!("cargo:rustc-cfg=other");
}

/// Whether an archive has a call.
fn has_call(archive: &Path, call: &str) -> bool {
    let symbols = Command::new("nm").arg(archive).output();
    let symbols = symbols.expect("nm lists an archive's symbols").stdout;
    let text = String::from_utf8_lossy(&symbols);
    text.split_whitespace().any(|symbol| symbol == call)
}

/// The first line of what a compiler says of its version, if it can be started.
fn version_of(compiler: &str) -> Option<String> {
    let output = Command::new(compiler).arg("--version").output().ok()?;
    let text = String::from_utf8_lossy(&output.stdout).into_owned();
    text.lines().next().map(str::to_string)
}

/// Runs a command, and ends the build where it fails.
fn assert_succeeds(command: &mut Command) {
    let succeeds = command.status().is_ok_and(|status| status.success());
    if !succeeds {
        eprintln!("this command failed: {command:?}");
        process::exit(1);
    }
}

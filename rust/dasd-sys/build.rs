//! Links libdasd: the static library of the folder that DASD_LIB_DIR names; or the one that this crate carries as assembly text for the
//! target, which the C compiler assembles; or what pkg-config knows, or the linker finds.

use std::env;
use std::path::{Path, PathBuf};
use std::process::Command;

fn main() {
    println!("cargo:rerun-if-changed=build.rs");
    println!("cargo:rerun-if-env-changed=DASD_LIB_DIR");
    if let Ok(folder) = env::var("DASD_LIB_DIR") {
        link_static(Path::new(&folder));
    } else if let Some(text) = carried_text() {
        link_static(&assembled(&text));
    } else {
        link_system();
    }
}

fn of_cargo(name: &str) -> String {
    env::var(name).unwrap_or_else(|_| panic!("dasd-sys: cargo sets {name}"))
}

fn link_static(folder: &Path) {
    println!("cargo:rustc-link-search=native={}", folder.display());
    println!("cargo:rustc-link-lib=static=dasd");
    println!("cargo:rerun-if-changed={}", folder.join("libdasd.a").display());
}

fn link_system() {
    let found = Command::new("pkg-config").args(["--libs-only-L", "dasd"]).output();
    if let Ok(output) = found.as_ref().map(|it| String::from_utf8_lossy(&it.stdout)) {
        for folder in output.split_whitespace().filter_map(|word| word.strip_prefix("-L")) {
            println!("cargo:rustc-link-search=native={folder}");
        }
    }
    println!("cargo:rustc-link-lib=dasd");
}

/// The library's text for the target, where this crate has one.
fn carried_text() -> Option<PathBuf> {
    if of_cargo("CARGO_CFG_TARGET_OS") != "linux" || of_cargo("CARGO_CFG_TARGET_POINTER_WIDTH") != "64" {
        return None;
    }
    let name = format!("libdasd-{}.s", of_cargo("CARGO_CFG_TARGET_ARCH"));
    Some(Path::new("library").join(name)).filter(|it| it.is_file())
}

/// Assembles the library and compiles the few functions by which it takes memory; the folder of the archive.
fn assembled(text: &Path) -> PathBuf {
    let made = PathBuf::from(of_cargo("OUT_DIR"));
    let (compiler, archiver) = (tool("CC", "cc", "gcc"), tool("AR", "ar", "ar"));
    let heap = Path::new("library/heap.c");
    println!("cargo:rerun-if-changed=library");
    let objects = [(text, "lib.o"), (heap, "heap.o")].map(|(source, object)| {
        let object = made.join(object);
        run(words(&compiler).args(["-std=c11", "-O2", "-fPIC", "-c", "-o"]).arg(&object).arg(source));
        object
    });
    let archive = made.join("libdasd.a");
    // an archive of an earlier build may have other members
    let _ = std::fs::remove_file(&archive);
    run(words(&archiver).arg("crs").arg(&archive).args(objects));
    made
}

/// The words of a tool, as the environment names it for this target; where it does not, the host's own, or the target's GNU tool.
fn tool(name: &str, own: &str, of_target: &str) -> String {
    let (host, target) = (of_cargo("HOST"), of_cargo("TARGET"));
    let names = [format!("{name}_{target}"), format!("{name}_{}", target.replace('-', "_")), format!("TARGET_{name}"), name.to_string()];
    for it in &names {
        println!("cargo:rerun-if-env-changed={it}");
    }
    names.iter().find_map(|it| env::var(it).ok().filter(|words| !words.trim().is_empty())).unwrap_or_else(|| {
        if host == target {
            own.to_string()
        } else {
            format!("{}-linux-gnu-{of_target}", of_cargo("CARGO_CFG_TARGET_ARCH"))
        }
    })
}

fn words(tool: &str) -> Command {
    let mut words = tool.split_whitespace();
    let mut command = Command::new(words.next().unwrap_or_default());
    command.args(words);
    command
}

fn run(command: &mut Command) {
    match command.status() {
        Ok(status) if status.success() => {}
        Ok(status) => panic!("dasd-sys: {command:?} ended with {status}"),
        Err(why) => panic!("dasd-sys: {command:?} can't be run ({why}): CC and AR name a C compiler and an archiver"),
    }
}

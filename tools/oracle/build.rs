//! Takes the original's text from the file named by CONDITIONAL_RS, and stops unless it is the published one.

#[allow(dead_code)]
#[path = "src/sha256.rs"]
mod sha256;

#[path = "src/damages.rs"]
mod damages;

use std::fs;
use std::path::{Path, PathBuf};
use std::process::Command;

const EXPECTED: &str = "9874a1452e97bff8389bba4e2b8694e18c128c4cc5ea929850ee349c06b680a0";

fn main() {
    println!("cargo::rerun-if-env-changed=CONDITIONAL_RS");
    println!("cargo::rerun-if-changed=build.rs");
    println!("cargo::rerun-if-changed=src/sha256.rs");
    println!("cargo::rerun-if-changed=src/damages.rs");
    println!("cargo::rerun-if-changed=probe.rs");
    println!("cargo::rerun-if-changed=damages.txt");
    if let Err(message) = build() {
        println!("cargo::error={message}");
    }
}

fn build() -> Result<(), String> {
    let original = read_original()?;
    let out = PathBuf::from(std::env::var("OUT_DIR").map_err(|e| e.to_string())?);
    let probe = fs::read_to_string("probe.rs").map_err(|e| format!("probe.rs: {e}"))?;
    let mut modules = String::new();
    add_module(&mut modules, &out, "conditional", &original)?;
    add_module(&mut modules, &out, "probed", &format!("{original}\n{probe}"))?;
    let mut table = String::new();
    if std::env::var_os("CARGO_FEATURE_TEETH").is_some() {
        table = add_damaged(&mut modules, &out, &original)?;
    }
    modules.push_str(&format!("pub const DAMAGED: &[(&str, Resolve)] = &[{table}];\n"));
    write(&out.join("original.rs"), &modules)?;
    if std::env::var_os("CARGO_FEATURE_LIBRARY").is_some() {
        link_library(&out)?;
    }
    Ok(())
}

fn read_original() -> Result<String, String> {
    let path = std::env::var("CONDITIONAL_RS")
        .map_err(|_| "CONDITIONAL_RS is not set: it has to name the file conditional.rs (see README.md)".to_string())?;
    println!("cargo::rerun-if-changed={path}");
    let bytes = fs::read(&path).map_err(|e| format!("CONDITIONAL_RS={path} cannot be read: {e}"))?;
    let found = sha256::hex_digest(&bytes);
    if found != EXPECTED {
        return Err(format!("CONDITIONAL_RS={path} is not the published conditional.rs: its SHA-256 is {found}, expected {EXPECTED}"));
    }
    String::from_utf8(bytes).map_err(|e| e.to_string())
}

/// Writes one module's text and declares it. Warnings of the original are not ours to mend.
fn add_module(modules: &mut String, out: &Path, name: &str, text: &str) -> Result<(), String> {
    let path = out.join(format!("{name}.rs"));
    write(&path, text)?;
    modules.push_str(&format!("#[allow(warnings)]\n#[path = {path:?}]\npub mod {name};\n"));
    Ok(())
}

/// One module for each damage; gives the entries of their table.
fn add_damaged(modules: &mut String, out: &Path, original: &str) -> Result<String, String> {
    let list = fs::read_to_string("damages.txt").map_err(|e| format!("damages.txt: {e}"))?;
    let mut table = String::new();
    for (index, damage) in damages::parse(&list)?.iter().enumerate() {
        let text = damages::apply(original, damage)?;
        let module = format!("damaged_{index}");
        add_module(modules, out, &module, &text)?;
        table.push_str(&format!("({:?}, {module}::resolve_conditional_paints), ", damage.name));
    }
    Ok(table)
}

/// Today's archives. With the feature `before` the whole job comes from a copy of libexports.a, and another from an earlier libexports.a.
fn link_library(out: &Path) -> Result<(), String> {
    let exports = archive("WAVENDIRU_LIB", "exports")?;
    if std::env::var_os("CARGO_FEATURE_BEFORE").is_some() {
        let earlier = archive("WAVENDIRU_BEFORE", "exports")?;
        link(&aligned_copy(&exports, out.join("libafter.a"), &[])?, "after");
        link(&aligned_copy(&earlier, out.join("libbefore.a"), &RENAMED)?, "before");
    } else {
        link(&exports, "exports");
    }
    if std::env::var_os("CARGO_FEATURE_COLUMNS").is_some() {
        link(&archive("WAVENDIRU_COLUMNS", "columnsbench")?, "columnsbench");
    }
    link(&archive("WAVENDIRU_LIB", "saveexports")?, "saveexports");
    Ok(())
}

fn archive(variable: &str, name: &str) -> Result<PathBuf, String> {
    println!("cargo::rerun-if-env-changed={variable}");
    let folder = std::env::var(variable).map_err(|_| format!("{variable} is not set: it has to name the folder that holds lib{name}.a"))?;
    let archive = Path::new(&folder).join(format!("lib{name}.a"));
    println!("cargo::rerun-if-changed={}", archive.display());
    if !archive.is_file() {
        let script = if name == "columnsbench" { "tools/oracle/columns_bench/build" } else { "tools/archives" };
        return Err(format!("{variable}={folder} holds no lib{name}.a ({script} writes it)"));
    }
    Ok(archive)
}

/// Of an earlier archive the whole job alone stays visible, under a name of its own.
const RENAMED: [&str; 2] =
    ["--redefine-sym=wavendiru_whole_job=wavendiru_whole_job_before", "--keep-global-symbol=wavendiru_whole_job_before"];

/// A copy whose code starts at multiples of 64 bytes: else where the linker puts two archives tells more than what is in them.
fn aligned_copy(archive: &Path, copy: PathBuf, options: &[&str]) -> Result<PathBuf, String> {
    let status = Command::new("objcopy").arg("--set-section-alignment=.text*=64").args(options).arg(archive).arg(&copy).status();
    if !status.map_err(|e| format!("objcopy (GNU binutils) cannot be run: {e}"))?.success() {
        return Err(format!("objcopy cannot copy {}", archive.display()));
    }
    Ok(copy)
}

fn link(archive: &Path, name: &str) {
    if let Some(folder) = archive.parent() {
        println!("cargo::rustc-link-search=native={}", folder.display());
    }
    println!("cargo::rustc-link-lib=static={name}");
}

fn write(path: &Path, text: &str) -> Result<(), String> {
    fs::write(path, text).map_err(|e| format!("{} cannot be written: {e}", path.display()))
}

//! With the feature `proved`, links the archives of the proved monitor; with `before`, earlier ones beside them under names of
//! their own.

use std::env;
use std::path::{Path, PathBuf};
use std::process::Command;

/// The archives, and the variables that tell the tests where they are.
const ARCHIVES: [(&str, &str); 3] = [
    ("axis_monitor", "MONITOR_ARCHIVE"),
    ("axis_logs", "MONITOR_LOGS_ARCHIVE"),
    ("axis_lists", "MONITOR_LISTS_ARCHIVE"),
];

/// Names the folder that holds the archives.
const FOLDER: &str = "MONITOR_ARCHIVE_DIR";

/// Names the folder that holds the earlier ones.
const FOLDER_BEFORE: &str = "MONITOR_BEFORE_DIR";

/// The functions of all archives; of the earlier ones with `before_` in front of the name.
const FUNCTIONS: [&str; 10] = [
    "monitor_interface",
    "monitor_read_list",
    "monitor_report",
    "monitor_cycle",
    "monitor_device_word",
    "monitor_run_log",
    "monitor_list_kit",
    "monitor_run_kit",
    "monitor_ask",
    "monitor_commit",
];

fn main() {
    println!("cargo:rerun-if-changed=build.rs");
    println!("cargo:rerun-if-env-changed={FOLDER}");
    println!("cargo:rerun-if-env-changed={FOLDER_BEFORE}");
    if env::var_os("CARGO_FEATURE_PROVED").is_none() {
        return;
    }
    let folder = folder(&env::var(FOLDER).unwrap_or_else(|_| "../target/staticlib".to_owned()));
    println!("cargo:rustc-link-search=native={}", folder.display());
    for (name, variable) in ARCHIVES {
        let archive = folder.join(format!("lib{name}.a"));
        println!("cargo:rerun-if-changed={}", archive.display());
        println!("cargo:rustc-env={variable}={}", archive.display());
        println!("cargo:rustc-link-lib=static={name}");
    }
    if env::var_os("CARGO_FEATURE_BEFORE").is_some() {
        before();
    }
}

/// A folder that is not absolute counts from this one, whatever cargo is run from.
fn folder(named: &str) -> PathBuf {
    Path::new(&env::var("CARGO_MANIFEST_DIR").unwrap_or_default()).join(named)
}

/// Links the earlier archives, as many as there are, renamed by `objcopy`.
fn before() {
    let named = env::var(FOLDER_BEFORE).unwrap_or_else(|_| panic!("{FOLDER_BEFORE} is not set"));
    let (folder, out) = (
        folder(&named),
        PathBuf::from(env::var("OUT_DIR").unwrap_or_default()),
    );
    println!("cargo:rustc-link-search=native={}", out.display());
    for (name, _) in ARCHIVES {
        let archive = folder.join(format!("lib{name}.a"));
        println!("cargo:rerun-if-changed={}", archive.display());
        if !archive.exists() {
            continue;
        }
        let mut objcopy = Command::new("objcopy");
        for function in FUNCTIONS {
            objcopy.arg(format!("--redefine-sym={function}=before_{function}"));
        }
        let renamed = out.join(format!("libbefore_{name}.a"));
        let status = objcopy.arg(&archive).arg(renamed).status();
        if !status.is_ok_and(|status| status.success()) {
            panic!("objcopy could not rename {}", archive.display());
        }
        println!("cargo:rustc-link-lib=static=before_{name}");
    }
}

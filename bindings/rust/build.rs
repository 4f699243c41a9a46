// Links the static library: that of RETIMER_LIB_DIR, a folder with libretimer.a as tools/install writes it, or the one that tools/bindings made in this checkout.
// Tells the command its commit and the logic that its proofs were checked by.
use std::path::{Path, PathBuf};
use std::process::Command;
use std::{env, fs};

fn main() {
    let root = Path::new(&env::var("CARGO_MANIFEST_DIR").unwrap()).join("../..");
    let out = env::var("OUT_DIR").unwrap();
    library(&root, Path::new(&out));
    version(&root);
}

fn library(root: &Path, out: &Path) {
    println!("cargo:rerun-if-env-changed=RETIMER_LIB_DIR");
    if let Some(folder) = env::var_os("RETIMER_LIB_DIR") {
        let folder = PathBuf::from(folder);
        println!("cargo:rustc-link-search=native={}", folder.display());
        println!("cargo:rerun-if-changed={}", folder.join("libretimer.a").display());
        return;
    }
    // in a checkout it has another name
    let made = root.join("target/staticlib");
    println!("cargo:rerun-if-changed={}", made.display());
    println!("cargo:rustc-link-search=native={}", made.display());
    println!("cargo:rustc-link-search=native={}", out.display());
    if fs::copy(made.join("libc_api.a"), out.join("libretimer.a")).is_err() {
        println!("cargo:warning=target/staticlib/libc_api.a is not there: tools/bindings proves and builds it");
    }
}

/// The commit and the logic, in the words of `bobbincrag --version`; what is not known is left out.
fn version(root: &Path) {
    let told = |program: &str, words: &[&str]| {
        let output = Command::new(program).args(words).current_dir(root).output().ok().filter(|o| o.status.success())?;
        Some(String::from_utf8_lossy(&output.stdout).trim().to_string()).filter(|t| !t.is_empty())
    };
    let commit = told("git", &["rev-parse", "--short=12", "HEAD"]).map(|c| format!("commit {c}"));
    let logic = told("rt", &["version"]).and_then(|v| v.split_once("logic ").map(|(_, sum)| format!("logic {sum}")));
    let both: Vec<String> = commit.into_iter().chain(logic).collect();
    let more = if both.is_empty() { String::new() } else { format!(" ({})", both.join(", ")) };
    println!("cargo:rustc-env=RETIMER_VERSION={}{more}", env::var("CARGO_PKG_VERSION").unwrap());
    if let Some(log) = told("git", &["rev-parse", "--git-path", "logs/HEAD"]).map(|p| root.join(p)).filter(|p| p.exists()) {
        println!("cargo:rerun-if-changed={}", log.display());
    }
    println!("cargo:rerun-if-changed=build.rs");
}

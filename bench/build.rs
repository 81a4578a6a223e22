// Links the proved functions, and libical where pkg-config finds it. NATIVE is the folder of libexports.a.
use std::env;
use std::process::Command;

fn main() {
    let dir = env::var("NATIVE").expect("set NATIVE to the folder of libexports.a");
    println!("cargo:rerun-if-env-changed=NATIVE");
    println!("cargo:rerun-if-changed={dir}/libexports.a");
    println!("cargo:rustc-link-search=native={dir}");
    println!("cargo:rustc-link-lib=static=exports");
    println!("cargo:rustc-check-cfg=cfg(libical)");
    if let Some(flags) = libical() {
        println!("cargo:rustc-cfg=libical");
        println!("cargo:rustc-link-lib=ical");
        for folder in flags.split_whitespace().filter_map(|flag| flag.strip_prefix("-L")) {
            println!("cargo:rustc-link-search=native={folder}");
        }
    }
}

// What the linker is told of libical, or nothing where it is not installed.
fn libical() -> Option<String> {
    let found = Command::new("pkg-config").args(["--libs", "libical"]).output().ok()?;
    found.status.success().then(|| String::from_utf8_lossy(&found.stdout).into_owned())
}

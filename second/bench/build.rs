// Links the static library of the crate `gauge_c`; the script .ci/bench says where it lies.
fn main() {
    for name in ["GAUGE_DIR", "RATTLE_LIB"] {
        println!("cargo:rerun-if-env-changed={name}");
        if let Ok(dir) = std::env::var(name) {
            println!("cargo:rustc-link-search=native={dir}");
        }
    }
    println!("cargo:rustc-link-lib=static=gauge");
    println!("cargo:rustc-link-lib=static=libc_c");
}

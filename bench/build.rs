// Where libbdre.a is: in the folder that BDRE_LIBRARY names, or where bench/library writes it.
fn main() {
    let folder = std::env::var("BDRE_LIBRARY").unwrap_or_else(|_| "../target/bench".into());
    let folder =
        std::fs::canonicalize(&folder).unwrap_or_else(|e| panic!("{folder}: {e}; run bench/test or bench/run"));
    println!("cargo:rerun-if-env-changed=BDRE_LIBRARY");
    println!("cargo:rerun-if-changed={}", folder.join("libbdre.a").display());
    println!("cargo:rustc-link-search=native={}", folder.display());
}

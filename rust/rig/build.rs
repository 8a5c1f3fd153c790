// Hands on where libm25p.a is, as the crate m25p has found it.
fn main() {
    println!("cargo::rerun-if-changed=build.rs");
    println!("cargo::rustc-env=M25P_ARCHIVE={}", std::env::var("DEP_M25P_ARCHIVE").unwrap());
}

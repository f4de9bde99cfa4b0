//! Links the archive of the proved crate that is to be timed: `bench/run` names its folder before it builds this program.

fn main() {
    let folder = std::env::var("IRONSIMMER_NATIVE")
        .expect("IRONSIMMER_NATIVE, the folder of libironsimmer.a: start bench/run");
    println!("cargo::rerun-if-env-changed=IRONSIMMER_NATIVE");
    println!("cargo::rerun-if-changed={folder}/libironsimmer.a");
    println!("cargo::rustc-link-search=native={folder}");
    println!("cargo::rustc-link-lib=static=ironsimmer");
}

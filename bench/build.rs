//! Links the library's calls, which `rt lib` has proved and compiled in crates/speed.
fn main() {
    let folder = std::env::var("SPEED").expect("SPEED: the folder that has libspeed.a");
    println!("cargo:rustc-link-search=native={folder}");
    println!("cargo:rustc-link-lib=static=speed");
    println!("cargo:rerun-if-env-changed=SPEED");
    println!("cargo:rerun-if-changed={folder}/libspeed.a");
}

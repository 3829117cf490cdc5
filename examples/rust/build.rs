// Links liblag.a. LAG_FOLDER names its folder, unless the linker finds it.
fn main() {
    println!("cargo:rerun-if-env-changed=LAG_FOLDER");
    if let Ok(folder) = std::env::var("LAG_FOLDER") {
        println!("cargo:rustc-link-search=native={folder}");
        println!("cargo:rerun-if-changed={folder}/liblag.a");
    }
    println!("cargo:rustc-link-lib=static=lag");
}

// ARCHIVE names the folder of libhost.a, and of libbefore.a where that is to be compared.
fn main() {
    let folder = std::env::var("ARCHIVE").expect("ARCHIVE: the folder of libhost.a");
    println!("cargo:rustc-check-cfg=cfg(before)");
    println!("cargo:rustc-link-search=native={folder}");
    println!("cargo:rustc-link-lib=static=host");
    let before = format!("{folder}/libbefore.a");
    if std::path::Path::new(&before).exists() {
        println!("cargo:rustc-link-lib=static=before");
        println!("cargo:rustc-cfg=before");
    }
    println!("cargo:rerun-if-env-changed=ARCHIVE");
    println!("cargo:rerun-if-changed={folder}");
}

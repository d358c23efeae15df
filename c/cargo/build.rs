fn main() {
    let folder = std::env::var("KPN_LIB").expect("KPN_LIB names the folder of libkpn.a");
    println!("cargo:rerun-if-env-changed=KPN_LIB");
    println!("cargo:rerun-if-changed={folder}/libkpn.a");
    println!("cargo:rustc-link-search=native={folder}");
    println!("cargo:rustc-link-lib=static=kpn");
}

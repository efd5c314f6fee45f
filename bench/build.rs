//! Links the proved library into `bench`, if STRAGUMELLA_LIB names the folder of libcapi.a.

fn main() {
    println!("cargo:rerun-if-env-changed=STRAGUMELLA_LIB");
    let Ok(folder) = std::env::var("STRAGUMELLA_LIB") else {
        return;
    };
    println!("cargo:rerun-if-changed={folder}/libcapi.a");
    println!("cargo:rustc-cfg=product");
    for argument in [&format!("{folder}/libcapi.a"), "-lpthread", "-ldl", "-lm", "-lc"] {
        println!("cargo:rustc-link-arg-bin=bench={argument}");
    }
}

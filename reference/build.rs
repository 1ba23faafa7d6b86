//! Links the proved static libraries for the programs that ask for one by a
//! feature: BOARD_LIB and SHEETS_LIB name the folders of libboard_c.a and
//! libsheet_c.a.

fn link(feature: &str, variable: &str, library: &str) {
    println!("cargo:rerun-if-env-changed={variable}");
    if std::env::var_os(feature).is_some() {
        let folder = std::env::var(variable)
            .unwrap_or_else(|_| panic!("{variable} names the folder of lib{library}.a"));
        println!("cargo:rerun-if-changed={folder}/lib{library}.a");
        println!("cargo:rustc-link-search=native={folder}");
        println!("cargo:rustc-link-lib=static={library}");
    }
}

fn main() {
    link("CARGO_FEATURE_BOARD", "BOARD_LIB", "board_c");
    link("CARGO_FEATURE_SHEETS", "SHEETS_LIB", "sheet_c");
}

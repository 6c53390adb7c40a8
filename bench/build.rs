//! Links the static library of the proved calls; `BENCH_CALLS` names the folder that it lies in.
fn main() {
    let folder = std::env::var("BENCH_CALLS").expect("BENCH_CALLS names the folder of libbench_calls.a");
    println!("cargo:rustc-link-search=native={folder}");
    println!("cargo:rustc-link-lib=static=bench_calls");
    println!("cargo:rerun-if-changed={folder}/libbench_calls.a");
    println!("cargo:rerun-if-env-changed=BENCH_CALLS");
}

fn main() {
    ola_source_folder::announce(&["executor/src/contract_executor.rs"]);
}

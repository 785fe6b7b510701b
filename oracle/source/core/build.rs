fn main() {
    ola_source_folder::announce(&[
        "core/src/program/binary_program.rs",
        "core/src/vm/hardware.rs",
        "core/src/vm/opcodes.rs",
        "core/src/vm/operands.rs",
    ]);
}

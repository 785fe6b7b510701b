#[allow(warnings)]
pub mod binary_program {
    include!(concat!(
        env!("OLA_SOURCE"),
        "/core/src/program/binary_program.rs"
    ));
}
pub mod decoder;

/// Stands for the source's modes: the three that contract_executor.rs tells apart. `Invoke` and `Debug` make traces;
/// `Debug` also prints.
#[derive(Debug, Clone, Copy, PartialEq, Eq)]
pub enum ExecuteMode {
    Call,
    Invoke,
    Debug,
}

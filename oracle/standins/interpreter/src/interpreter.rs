use crate::utils::number::NumberRet;

pub struct Interpreter;

impl Interpreter {
    pub fn new(_code: &str) -> Interpreter {
        Interpreter
    }

    // The prophet and the memory are the source's types; nothing here looks at them.
    pub fn run<Prophet, Memory>(
        &mut self,
        _prophet: &Prophet,
        _inputs: Vec<u64>,
        _memory: &Memory,
    ) -> Result<NumberRet, String> {
        Err("the stand-in runs no prophets".to_string())
    }
}

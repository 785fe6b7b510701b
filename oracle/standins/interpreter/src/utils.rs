pub mod number {
    /// A prophet's results.
    pub enum NumberRet {
        Single(Number),
        Multiple(Vec<Number>),
    }

    /// No prophet runs, so there is no such number.
    pub enum Number {}

    impl Number {
        pub fn get_number(&self) -> u64 {
            match *self {}
        }
    }
}

/// Stands for the source's hash: an event's topic, four cells.
pub type Hash = [u64; 4];

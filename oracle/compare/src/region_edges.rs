//! How often steps came to cells around the ends of the memory's regions.

use model::machine::{Access, Touched};
use model::numbers::{HEAP_END, P, STACK_END};

use crate::tables::{grouped, head, row};

const ACCESSES: [(Access, &str); 3] = [
    (Access::Read, "a cell read"),
    (Access::SpanRead, "a span read"),
    (Access::Write, "cells written"),
];
const ENDS: [(&str, u64); 3] = [("stack", STACK_END), ("heap", HEAP_END), ("p", P)];

/// How cells lie to a region's end.
const RELATIONS: [&str; 4] = [
    "end one before it",
    "end with it",
    "go past it",
    "start after it",
];

#[derive(Default)]
pub struct EdgeCounts {
    /// By access, end and relation.
    around: [[[u64; RELATIONS.len()]; ENDS.len()]; ACCESSES.len()],
    /// By access, from address 0 on.
    at_zero: [u64; ACCESSES.len()],
}

impl EdgeCounts {
    pub fn count(&mut self, touched: Touched) {
        let Touched {
            access,
            start,
            length,
        } = touched;
        self.at_zero[access as usize] += (start == 0) as u64;
        // The address after the last, which may be past all addresses.
        let after = start as u128 + length as u128;
        for (place, (_, end)) in ENDS.into_iter().enumerate() {
            let counts = &mut self.around[access as usize][place];
            let wide_end = end as u128;
            counts[0] += (start < end && after == wide_end - 1) as u64;
            counts[1] += (start < end && after == wide_end) as u64;
            counts[2] += (start < end && after > wide_end) as u64;
            counts[3] += (start == end) as u64;
        }
    }

    /// What was never met.
    pub fn missing(&self) -> Vec<String> {
        let mut missing = vec![];
        for (access, access_name) in ACCESSES {
            if self.at_zero[access as usize] == 0 {
                missing.push(format!("{access_name} from address 0"));
            }
            for (end, (end_name, _)) in ENDS.into_iter().enumerate() {
                for (relation, relation_name) in RELATIONS.into_iter().enumerate() {
                    let count = self.around[access as usize][end][relation];
                    if count == 0 && is_compared(access, end, relation) {
                        missing.push(format!(
                            "{access_name}, at the end of {end_name}: cells that {relation_name}"
                        ));
                    }
                }
            }
        }
        missing
    }

    pub fn put(&self, text: &mut String) {
        let relations = RELATIONS.map(|name| format!("Cells {name}"));
        let mut titles = vec!["Access", "From address 0", "Region's end"];
        titles.extend(relations.iter().map(String::as_str));
        head(text, &titles);
        for (access, access_name) in ACCESSES {
            for (end, (end_name, _)) in ENDS.into_iter().enumerate() {
                let at_zero = grouped(self.at_zero[access as usize]);
                let mut cells = vec![at_zero, end_name.to_string()];
                let counts = self.around[access as usize][end];
                cells.extend(counts.into_iter().enumerate().map(|(relation, count)| {
                    if is_compared(access, end, relation) {
                        grouped(count)
                    } else {
                        "-".to_string()
                    }
                }));
                row(text, access_name, &cells);
            }
        }
    }
}

/// A single cell cannot go past an end, and stores to the prophet region are not compared.
fn is_compared(access: Access, end: usize, relation: usize) -> bool {
    match access {
        Access::Read => relation != 2,
        Access::SpanRead => true,
        Access::Write => match end {
            0 => true,
            1 => relation < 2,
            _ => relation == 3,
        },
    }
}

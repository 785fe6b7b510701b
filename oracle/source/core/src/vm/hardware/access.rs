//! A memory with any cells, and all the cells of a memory: the source's own functions give neither.

use std::collections::{BTreeMap, HashMap};

use super::{OlaMemory, MEM_HEAP_REGION, MEM_PROPHET_REGION, MEM_STACK_REGION};

/// Exactly these cells are present. `OlaMemory::default` would hold the first heap cell too.
///
/// The source puts each store to the prophet region at psp and then adds 1 to psp, so psp follows from the cells there.
pub fn memory_with(cells: &BTreeMap<u64, u64>) -> OlaMemory {
    let region = |addresses: std::ops::Range<u64>| -> HashMap<u64, u64> {
        cells
            .range(addresses)
            .map(|(address, number)| (*address, *number))
            .collect()
    };
    let prophet_region = region(MEM_PROPHET_REGION);
    OlaMemory {
        psp: MEM_PROPHET_REGION.start + prophet_region.len() as u64,
        stack_region: region(MEM_STACK_REGION),
        heap_region: region(MEM_HEAP_REGION),
        prophet_region,
    }
}

/// All present cells.
pub fn cells_of(memory: &OlaMemory) -> BTreeMap<u64, u64> {
    [
        &memory.stack_region,
        &memory.heap_region,
        &memory.prophet_region,
    ]
    .into_iter()
    .flatten()
    .map(|(address, number)| (*address, *number))
    .collect()
}

pub fn cell_count(memory: &OlaMemory) -> usize {
    memory.stack_region.len() + memory.heap_region.len() + memory.prophet_region.len()
}

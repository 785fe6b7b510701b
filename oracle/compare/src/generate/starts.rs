//! States as they are lent: in buffers of some capacity, with marks, and pairs that differ in marked numbers alone.

use model::lending::lend;
use model::machine::Capacity;
use model::numbers::P;
use model::state::State;
use ola::Lent;
use oracle::first_list::values;
use oracle::splitmix::SplitMix64;

/// In buffers with little or much free space, and with any PSP, often 0.
pub fn lent_start(random: &mut SplitMix64, state: &State) -> Lent {
    let capacity = Capacity {
        cells: state.cells.len() + random.pick(&[0, 1, 2, 8, 100]),
        tape: state.tape.len() + random.pick(&[0, 1, 4, 12, 100]),
        output: state.output.len() + random.pick(&[0, 1, 4, 12, 100]),
    };
    let mut lent = lend(state, capacity);
    match random.below(10) {
        0 => lent.machine.psp = 0,
        1..=3 => lent.machine.psp = values::any(random),
        _ => {}
    }
    lent
}

/// Some registers and cells become marked; a marked number is below p.
pub fn mark(random: &mut SplitMix64, lent: &mut Lent) {
    let Lent {
        machine,
        extras,
        buffers,
    } = lent;
    let chance = random.pick(&[2, 5, 15, 40]);
    for (register, number) in machine.registers.iter_mut().enumerate() {
        if random.percent(chance) {
            extras.registers |= 1 << register;
            *number %= P;
        }
    }
    let cells = buffers.marks.iter_mut().zip(&mut buffers.numbers);
    for (mark, number) in cells.take(machine.cell_count as usize) {
        if random.percent(chance) {
            *mark = 1;
            *number %= P;
        }
    }
}

/// A start alike: other marked numbers, and anything beyond the counts.
pub fn twin(random: &mut SplitMix64, lent: &Lent) -> Lent {
    let mut twin = lent.clone();
    let Lent {
        machine,
        extras,
        buffers,
    } = &mut twin;
    for (register, number) in machine.registers.iter_mut().enumerate() {
        if extras.registers >> register & 1 == 1 {
            *number = secret(random);
        }
    }
    let cells = machine.cell_count as usize;
    for (mark, number) in buffers.marks.iter().zip(&mut buffers.numbers).take(cells) {
        if *mark == 1 {
            *number = secret(random);
        }
    }
    for (buffer, count) in [
        (&mut buffers.addresses, cells),
        (&mut buffers.numbers, cells),
        (&mut buffers.moments, cells),
        (&mut buffers.marks, cells),
        (&mut buffers.tape, machine.tape_count as usize),
        (&mut buffers.output, machine.output_count as usize),
    ] {
        let used = count.min(buffer.len());
        buffer[used..].fill(random.draw());
    }
    twin
}

/// A number that may be marked, often 0.
fn secret(random: &mut SplitMix64) -> u64 {
    match random.below(5) {
        0 => 0,
        _ => values::any(random) % P,
    }
}

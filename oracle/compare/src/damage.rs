//! Damages to what a call is handed: to a state, to words, to a text. Some go only to a limit and not past it.

use model::lending::GREATEST;
use model::numbers::CLOCK_LIMIT;
use model::numbers::{HEAP_END, P};
use ola::Lent;
use oracle::splitmix::SplitMix64;

/// Damages the part of a state that both runs look at.
pub fn plain_state(random: &mut SplitMix64, lent: &mut Lent) {
    let Lent {
        machine, buffers, ..
    } = lent;
    let used = (machine.cell_count as usize).min(buffers.addresses.len());
    let clk = machine.clk;
    match random.below(17) {
        0 => machine.clk = random.pick(&[CLOCK_LIMIT - 1, CLOCK_LIMIT, u64::MAX]),
        1 => machine.cell_count = bad_count(random, &buffers.addresses),
        2 => machine.tape_count = bad_count(random, &buffers.tape),
        3 => machine.output_count = bad_count(random, &buffers.output),
        4 => resize(random, &mut buffers.addresses),
        5 => resize(random, &mut buffers.numbers),
        6 => {
            let capacity = around(random, GREATEST.cells);
            for buffer in [
                &mut buffers.addresses,
                &mut buffers.numbers,
                &mut buffers.moments,
                &mut buffers.marks,
            ] {
                buffer.resize(capacity, 0);
            }
        }
        7 => buffers.tape.resize(around(random, GREATEST.tape), 0),
        8 => buffers.output.resize(around(random, GREATEST.output), 0),
        9 if used > 1 => {
            let place = random.below(used as u64 - 1) as usize;
            buffers.addresses[place] = buffers.addresses[place + 1];
        }
        10 if used > 1 => {
            let place = random.below(used as u64 - 1) as usize;
            buffers.addresses.swap(place, place + 1);
        }
        11 if used > 0 => {
            buffers.addresses[used - 1] = random.pick(&[HEAP_END - 1, HEAP_END, P, u64::MAX]);
        }
        12 => set_one(random, &mut buffers.numbers, &[P, P + 1, u64::MAX]),
        13 => resize(random, &mut buffers.moments),
        14 => set_one(random, &mut buffers.moments, &[clk, clk + 1, u64::MAX]),
        // Younger than some cells.
        15 => machine.clk = clk.saturating_sub(1),
        // Beyond the counts anything may stand.
        _ => {
            for buffer in [
                &mut buffers.addresses,
                &mut buffers.numbers,
                &mut buffers.moments,
                &mut buffers.marks,
            ] {
                let start = used.min(buffer.len());
                buffer[start..].fill(random.draw());
            }
        }
    }
}

/// Damages marks, which the plain run does not look at, or marked numbers.
pub fn marks(random: &mut SplitMix64, lent: &mut Lent) {
    let Lent {
        machine,
        extras,
        buffers,
    } = lent;
    match random.below(5) {
        0 => resize(random, &mut buffers.marks),
        1 => set_one(random, &mut buffers.marks, &[1, 2, u64::MAX]),
        2 => extras.registers |= 1 << random.below(64),
        3 => {
            let register = random.below(10) as usize;
            extras.registers |= 1 << register;
            machine.registers[register] = random.pick(&[P - 1, P, P + 1, u64::MAX]);
        }
        _ => {
            let place = random.below(buffers.numbers.len().max(1) as u64) as usize;
            if let (Some(mark), Some(number)) =
                (buffers.marks.get_mut(place), buffers.numbers.get_mut(place))
            {
                *mark = 1;
                *number = random.pick(&[P - 1, P]);
            }
        }
    }
}

/// A program's words.
pub fn words(random: &mut SplitMix64, words: &mut Vec<u64>) {
    let place = random.below(words.len().max(1) as u64) as usize;
    match random.below(8) {
        0 => words.truncate(place),
        1 => words.push(random.draw()),
        2 => repeat(random, words),
        3..=5 if !words.is_empty() => words[place] ^= 1 << random.below(64),
        6 if !words.is_empty() => words[place] = random.draw(),
        7 if !words.is_empty() => {
            words.remove(place);
        }
        _ => words.clear(),
    }
}

/// A program's text.
pub fn text(random: &mut SplitMix64, text: &mut Vec<u8>) {
    let place = random.below(text.len().max(1) as u64) as usize;
    let byte = random.pick(b"0f9ag/:`G\n\r \x00\xff");
    match random.below(12) {
        0 => text.truncate(place),
        1 => {
            text.pop();
        }
        2 => text.push(byte),
        3 if !text.is_empty() => text.insert(place, byte),
        4..=6 if !text.is_empty() => text[place] = byte,
        7 if !text.is_empty() => {
            text.remove(place);
        }
        8 if !text.is_empty() => text[place] = text[place].to_ascii_uppercase(),
        9 => {
            // A line of none, one or several words.
            let count = random.below(6);
            let line: String = (0..count)
                .map(|_| format!("{:016x}", random.draw()))
                .collect();
            text.extend_from_slice(line.as_bytes());
            text.push(b'\n');
        }
        10 => many_lines(random, text),
        _ => text.clear(),
    }
}

/// So many frames that their number or their bytes are around the most.
fn many_lines(random: &mut SplitMix64, text: &mut Vec<u8>) {
    if random.percent(50) {
        // The shortest frame, END.
        let most = around(random, 512);
        let lines = text.iter().filter(|byte| **byte == b'\n').count();
        for _ in lines..most {
            text.extend_from_slice(b"000000000000000b\n");
        }
    } else {
        let most = around(random, 65_536);
        text.resize(most.max(text.len()), b'0');
        if let Some(last) = text.last_mut() {
            *last = b'\n';
        }
    }
}

/// The words over and over, so that their number of frames is around the most or far above it.
fn repeat(random: &mut SplitMix64, words: &mut Vec<u64>) {
    let most = random.pick(&[510, 511, 512, 513, 514, 1500]);
    words.resize(words.len().max(most), 11);
}

/// One below, the limit itself, one above.
fn around(random: &mut SplitMix64, limit: usize) -> usize {
    limit - 1 + random.below(3) as usize
}

/// Its whole capacity, or more.
fn bad_count(random: &mut SplitMix64, buffer: &[u64]) -> u64 {
    let capacity = buffer.len() as u64;
    random.pick(&[
        capacity,
        capacity + 1,
        capacity + 1000,
        1 << 32,
        1 << 63,
        u64::MAX - 1,
        u64::MAX,
    ])
}

/// One element more or fewer.
fn resize(random: &mut SplitMix64, buffer: &mut Vec<u64>) {
    if random.percent(50) {
        buffer.push(0);
    } else {
        buffer.pop();
    }
}

fn set_one(random: &mut SplitMix64, buffer: &mut [u64], numbers: &[u64]) {
    let place = random.below(buffer.len().max(1) as u64) as usize;
    if let Some(element) = buffer.get_mut(place) {
        *element = random.pick(numbers);
    }
}

//! A case, as its lines give it.

use ola::{Buffers, Lent, Machine, Marks, Program, MOST_CELLS, MOST_VALUES};

/// The greatest capacity that a case may give: one more than is ever in order.
const MOST_LENT: u64 = MOST_VALUES as u64 + 1;

/// What stands in the places of a lent buffer that no line gives, and in every byte of the sheet.
const UNUSED: u64 = 0xEEEE_EEEE_EEEE_EEEE;
const UNUSED_BYTE: u8 = 0xEE;

pub struct Case {
    words: Option<Vec<u64>>,
    text: Vec<u8>,
    machine: Machine,
    extras: Marks,
    /// The first places of addresses, numbers, marks, tape, output and moments.
    given: [Vec<u64>; 6],
    /// Those of all but moments.
    capacities: [u64; 5],
    /// That of numbers, where there is none.
    moments_capacity: Option<u64>,
    /// The bytes of the sheet.
    sheet: u64,
}

impl Default for Case {
    fn default() -> Case {
        Case {
            words: None,
            text: vec![],
            machine: Machine::default(),
            extras: Marks::default(),
            given: Default::default(),
            capacities: [MOST_CELLS, MOST_CELLS, MOST_CELLS, MOST_VALUES, MOST_VALUES]
                .map(|count| count as u64),
            moments_capacity: None,
            sheet: MOST_LENT,
        }
    }
}

impl Case {
    /// Takes a line in; None where it is not understood.
    pub fn take(&mut self, line: &[u8]) -> Option<()> {
        let kind = line.first_chunk()?;
        if kind == b"li" {
            self.text.extend(rest_of(line).unwrap_or_default());
            self.text.push(b'\n');
            return Some(());
        }
        let numbers = numbers_of(line)?;
        let machine = &mut self.machine;
        match kind {
            b"wo" => self.words = Some(numbers),
            b"ze" => {
                let [count] = numbers[..] else { return None };
                self.text.resize(self.text.len() + count as usize, b'0');
            }
            b"re" => {
                let places = machine
                    .registers
                    .iter_mut()
                    .chain([&mut self.extras.registers]);
                put(numbers, places)?;
            }
            b"st" => {
                let places = [&mut machine.pc, &mut machine.clk, &mut machine.psp];
                put(numbers, places.into_iter().chain(&mut machine.storage_addr))?;
            }
            b"sh" => {
                if numbers.iter().any(|number| *number > MOST_LENT) {
                    return None;
                }
                put(numbers, [&mut self.sheet])?;
            }
            b"us" => {
                let counts = [
                    &mut machine.cell_count,
                    &mut machine.tape_count,
                    &mut machine.output_count,
                ];
                put(numbers, counts)?;
            }
            b"bu" => {
                if numbers.iter().any(|number| *number > MOST_LENT) {
                    return None;
                }
                self.moments_capacity = numbers.get(5).copied();
                let all = self.capacities.iter_mut();
                put(numbers, all.chain(&mut self.moments_capacity))?;
            }
            b"ad" => self.given[0] = numbers,
            b"nu" => self.given[1] = numbers,
            b"ma" => self.given[2] = numbers,
            b"ta" => self.given[3] = numbers,
            b"ou" => self.given[4] = numbers,
            b"mo" => self.given[5] = numbers,
            _ => return None,
        }
        Some(())
    }

    /// The budget of a line plain, guarded or traced, if it has one; None where the line is not understood.
    pub fn budget_of(&self, line: &[u8]) -> Option<Option<u64>> {
        match numbers_of(line)?[..] {
            [] => Some(None),
            [budget] => Some(Some(budget)),
            _ => None,
        }
    }

    pub fn program(&self, budget: Option<u64>) -> Program<'_> {
        match (budget, &self.words) {
            (None, _) => Program::BudgetText { text: &self.text },
            (Some(budget), Some(words)) => Program::Words { words, budget },
            (Some(budget), None) => Program::Text {
                text: &self.text,
                budget,
            },
        }
    }

    pub fn lent(&self) -> Lent {
        let buffer = |place: usize| {
            let mut buffer = self.given[place].clone();
            buffer.resize(self.capacities[place] as usize, UNUSED);
            buffer
        };
        Lent {
            machine: self.machine,
            extras: self.extras,
            buffers: Buffers {
                addresses: buffer(0),
                numbers: buffer(1),
                moments: self.moments(),
                marks: buffer(2),
                tape: buffer(3),
                output: buffer(4),
            },
        }
    }

    /// Those of used cells are 0 where no line gives them.
    fn moments(&self) -> Vec<u64> {
        let [_, numbers, ..] = self.capacities;
        let capacity = self.moments_capacity.unwrap_or(numbers);
        let used = capacity.min(self.machine.cell_count) as usize;
        let mut moments = self.given[5].clone();
        moments.resize(used.max(moments.len()), 0);
        moments.resize(capacity as usize, UNUSED);
        moments
    }

    /// The sheet of traced calls.
    pub fn sheet(&self) -> Vec<u8> {
        vec![UNUSED_BYTE; self.sheet as usize]
    }
}

/// Puts numbers into the first places; None where there are more numbers than places.
fn put<'a>(numbers: Vec<u64>, places: impl IntoIterator<Item = &'a mut u64>) -> Option<()> {
    let mut places = places.into_iter();
    for number in numbers {
        *places.next()? = number;
    }
    Some(())
}

/// What stands after a line's first space, if it has one.
fn rest_of(line: &[u8]) -> Option<&[u8]> {
    let space = line.iter().position(|byte| *byte == b' ')?;
    Some(&line[space + 1..])
}

/// The numbers after a line's first word, each after one space.
fn numbers_of(line: &[u8]) -> Option<Vec<u64>> {
    match rest_of(line) {
        None => Some(vec![]),
        Some(rest) => rest.split(|byte| *byte == b' ').map(number_of).collect(),
    }
}

/// Without leading zeros.
fn number_of(digits: &[u8]) -> Option<u64> {
    let is_digit = |byte: &u8| matches!(byte, b'0'..=b'9' | b'a'..=b'f');
    if !digits.iter().all(is_digit) || digits.len() > 1 && digits[0] == b'0' {
        return None;
    }
    u64::from_str_radix(std::str::from_utf8(digits).ok()?, 16).ok()
}

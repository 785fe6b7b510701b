//! The cells: a map in three slices, the addresses strictly rising.

use super::field::P;
use super::Refusal;

pub const STACK_END: u64 = 0xFFFF_FFFD_0000_0003;
pub const HEAP_END: u64 = 0xFFFF_FFFE_0000_0002;

pub struct Cells<'a> {
    addresses: &'a mut [u64],
    numbers: &'a mut [u64],
    moments: &'a mut [u64],
    count: usize,
}

impl<'a> Cells<'a> {
    /// Of slices that passed entry.
    pub fn new(
        addresses: &'a mut [u64],
        numbers: &'a mut [u64],
        moments: &'a mut [u64],
        count: usize,
    ) -> Cells<'a> {
        assert!(count <= addresses.len());
        assert!(addresses.len() == numbers.len() && addresses.len() == moments.len());
        Cells {
            addresses,
            numbers,
            moments,
            count,
        }
    }

    pub fn count(&self) -> usize {
        self.count
    }

    #[inline(always)]
    pub fn read(&self, address: u64) -> Result<u64, Refusal> {
        match self.find(address) {
            // SAFETY: `find` gives places below `count`.
            Ok(at) => Ok(unsafe { *self.numbers.get_unchecked(at) }),
            Err(_) => Err(11),
        }
    }

    /// The cells of a span, all of them present.
    #[inline(always)]
    pub fn read_span(&self, start: u64, length: u64) -> Result<&[u64], Refusal> {
        let end = start.checked_add(length).ok_or(12)?;
        if start >= P {
            return Err(11);
        }
        if end >= region_end(start) {
            return Err(12);
        }
        if length == 0 {
            return Ok(&[]);
        }
        let at = self.find(start).map_err(|_| 11)?;
        if length > (self.count - at) as u64 {
            return Err(11);
        }
        let after = at + length as usize;
        // Addresses rise: where the last one fits, all do.
        if self.addresses[after - 1] != end - 1 {
            return Err(11);
        }
        Ok(&self.numbers[at..after])
    }

    #[inline(always)]
    pub fn store(&mut self, address: u64, number: u64, moment: u64) -> Result<(), Refusal> {
        if number > P {
            return Err(14);
        }
        check_address(address)?;
        match self.find(address) {
            Ok(at) => {
                // SAFETY: `find` gives places below `count`.
                unsafe {
                    *self.numbers.get_unchecked_mut(at) = number;
                    *self.moments.get_unchecked_mut(at) = moment;
                }
                Ok(())
            }
            Err(at) => {
                if self.count == self.addresses.len() {
                    return Err(16);
                }
                insert(self.addresses, self.count, at, address);
                insert(self.numbers, self.count, at, number);
                insert(self.moments, self.count, at, moment);
                self.count += 1;
                Ok(())
            }
        }
    }

    /// Stores numbers to the cells from `start` on.
    #[inline(always)]
    pub fn store_span(&mut self, start: u64, numbers: &[u64], moment: u64) -> Result<(), Refusal> {
        if numbers.is_empty() {
            return Ok(());
        }
        let length = numbers.len();
        let end = start.checked_add(length as u64).ok_or(14)?;
        if end > HEAP_END {
            return Err(first_refusal(start, numbers));
        }
        if numbers.iter().any(|number| *number > P) {
            return Err(14);
        }

        let low = self.find(start).unwrap_or_else(|at| at);
        let most = self.count.min(low + length);
        let high = if most == low + length && self.addresses[most - 1] == end - 1 {
            most
        } else {
            low + self.addresses[low..most].partition_point(|address| *address < end)
        };
        let count = self.count + length - (high - low);
        if count > self.addresses.len() {
            return Err(16);
        }
        if count != self.count {
            self.addresses.copy_within(high..self.count, low + length);
            self.numbers.copy_within(high..self.count, low + length);
            self.moments.copy_within(high..self.count, low + length);
            self.count = count;
            for (place, address) in self.addresses[low..].iter_mut().zip(start..end) {
                *place = address;
            }
        }
        self.numbers[low..low + length].copy_from_slice(numbers);
        self.moments[low..low + length].fill(moment);
        Ok(())
    }

    /// Where an address is, or where it would go.
    #[inline(always)]
    fn find(&self, address: u64) -> Result<usize, usize> {
        // SAFETY: `count` is at most the slices' length, and only grows up to it.
        let used = unsafe { self.addresses.get_unchecked(..self.count) };
        // Cells without gaps from the first on are found at once.
        if let Some(first) = used.first() {
            let guess = address.wrapping_sub(*first) as usize;
            if used.get(guess) == Some(&address) {
                return Ok(guess);
            }
        }
        used.binary_search(&address)
    }
}

#[inline(never)]
fn insert(values: &mut [u64], count: usize, at: usize, value: u64) {
    values.copy_within(at..count, at + 1);
    values[at] = value;
}

/// The end of the region of an address below p.
fn region_end(address: u64) -> u64 {
    if address < STACK_END {
        STACK_END
    } else if address < HEAP_END {
        HEAP_END
    } else {
        P
    }
}

#[inline(always)]
fn check_address(address: u64) -> Result<(), Refusal> {
    if address < HEAP_END {
        Ok(())
    } else if address < P {
        Err(15)
    } else {
        Err(14)
    }
}

/// Why cells that reach past the heap are not stored.
#[cold]
fn first_refusal(start: u64, numbers: &[u64]) -> Refusal {
    for (address, number) in (start..).zip(numbers) {
        if *number > P {
            return 14;
        }
        if let Err(refusal) = check_address(address) {
            return refusal;
        }
    }
    unreachable!("the last cell is past the heap")
}

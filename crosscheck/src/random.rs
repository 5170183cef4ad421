//! Random executions from a fixed seed, biased towards loads and stores that meet on few addresses.

use crate::record::{Action, Operation};

/// A small generator (splitmix64): the same seed gives the same numbers everywhere.
pub struct Random(pub u64);

impl Random {
    pub fn next(&mut self) -> u64 {
        self.0 = self.0.wrapping_add(0x9E37_79B9_7F4A_7C15);
        let mut z = self.0;
        z = (z ^ (z >> 30)).wrapping_mul(0xBF58_476D_1CE4_E5B9);
        z = (z ^ (z >> 27)).wrapping_mul(0x94D0_49BB_1331_11EB);
        z ^ (z >> 31)
    }

    /// A number below `n`.
    pub fn below(&mut self, n: usize) -> usize {
        (self.next() % n as u64) as usize
    }

    /// True once in `n` times.
    pub fn once_in(&mut self, n: usize) -> bool {
        self.below(n) == 0
    }

    /// A well-formed execution of `n` operations in `threads` threads on `addresses` addresses.
    /// Each address has an initial store, so that every load can have a source.
    pub fn execution(&mut self, n: usize, threads: usize, addresses: usize) -> Vec<Operation> {
        let mut operations: Vec<Operation> = Vec::new();
        for address in 0..addresses.min(n) {
            operations.push(Operation {
                thread: 0,
                action: Action::Store { address: address as u16 },
                dependence: None,
            });
        }
        while operations.len() < n {
            let thread = 1 + self.below(threads) as u8;
            let address = self.below(addresses) as u16;
            let action = match self.below(10) {
                0 => Action::Fence,
                1 => Action::Branch,
                2..=5 => Action::Store { address },
                _ => Action::Load { address, source: 0 },
            };
            let above: Vec<usize> = (0..operations.len()).filter(|&k| operations[k].thread == thread).collect();
            let dependence =
                if above.is_empty() || !self.once_in(4) { None } else { Some(above[self.below(above.len())] as u8) };
            operations.push(Operation { thread, action, dependence });
        }
        for k in 0..operations.len() {
            if let Action::Load { address, .. } = operations[k].action {
                let stores: Vec<usize> =
                    (0..operations.len()).filter(|&s| operations[s].action == Action::Store { address }).collect();
                let source = stores[self.below(stores.len())] as u8;
                operations[k].action = Action::Load { address, source };
            }
        }
        operations
    }
}

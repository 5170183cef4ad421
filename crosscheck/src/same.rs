//! The judge's own algorithm in plain Rust, to compare speeds with. It is no check of its answers.

use crate::record::{Action, Operation};

#[derive(Clone, Copy, PartialEq, Eq)]
pub struct Order {
    pub rows: [u32; 32],
}

impl Order {
    pub fn before(&self, a: usize, b: usize) -> bool {
        (self.rows[a] >> b) & 1 == 1
    }

    pub fn record(&mut self, a: usize, b: usize) {
        let after = self.rows[b] | (1 << b);
        for x in 0..32 {
            if x == a || self.before(x, a) {
                self.rows[x] |= after;
            }
        }
    }

    pub fn pairs(&self, n: usize) -> u32 {
        self.rows[..n].iter().map(|row| row.count_ones()).sum()
    }
}

/// What WEAK keeps (code 2), SC (code 1), WEAK with dependences (code 3).
pub fn kept(code: u8, first: (usize, Operation), second: (usize, Operation)) -> bool {
    use Action::*;
    let weak = match (first.1.action, second.1.action) {
        (Load { .. } | Store { .. }, Fence) | (Fence, Load { .. } | Store { .. }) => true,
        (Branch, Branch | Store { .. }) => true,
        (Store { address: x }, Load { address: y, .. } | Store { address: y }) => x == y,
        (Load { address: x, .. }, Store { address: y }) => x == y,
        _ => false,
    };
    match code {
        1 => true,
        2 => weak,
        _ => weak || second.1.dependence == Some(first.0 as u8),
    }
}

/// The local order and the opening order.
pub fn open(operations: &[Operation], code: u8) -> (Order, Order) {
    let n = operations.len();
    let mut local = Order { rows: [0; 32] };
    for a in 0..n {
        for b in 0..n {
            let (x, y) = (operations[a], operations[b]);
            let pair = if x.thread == 0 {
                y.thread != 0
            } else {
                x.thread == y.thread && a < b && kept(code, (a, x), (b, y))
            };
            if pair {
                local.rows[a] |= 1 << b;
            }
        }
    }
    let mut opening = Order { rows: [0; 32] };
    for a in 0..n {
        for b in 0..n {
            let source = matches!(operations[b].action, Action::Load { source, .. } if source as usize == a);
            if local.before(a, b) || source {
                opening.record(a, b);
            }
        }
    }
    (local, opening)
}

fn source(operations: &[Operation], load: usize) -> Option<usize> {
    match operations[load].action {
        Action::Load { source, .. } => Some(source as usize),
        _ => None,
    }
}

fn touches(operations: &[Operation], store: usize, load: usize) -> bool {
    match (operations[store].action, operations[load].action) {
        (Action::Store { address: x }, Action::Load { address: y, .. }) => x == y,
        _ => false,
    }
}

/// The first pair that rule a, else b, else c asks for and that is missing.
pub fn first_missing(operations: &[Operation], order: &Order) -> Option<(usize, usize)> {
    let n = operations.len();
    for load in 0..n {
        let Some(seen) = source(operations, load) else { continue };
        for store in 0..n {
            if touches(operations, store, load)
                && store != seen
                && order.before(store, load)
                && !order.before(store, seen)
            {
                return Some((store, seen));
            }
        }
    }
    for load in 0..n {
        let Some(seen) = source(operations, load) else { continue };
        for store in 0..n {
            if touches(operations, store, load) && order.before(seen, store) && !order.before(load, store) {
                return Some((load, store));
            }
        }
    }
    for first in 0..n {
        let Some(seen) = source(operations, first) else { continue };
        for second in 0..n {
            let Some(other) = source(operations, second) else { continue };
            if seen == other || !touches(operations, seen, second) {
                continue;
            }
            let after = order.rows[seen] & order.rows[other];
            for a in 0..n {
                if order.before(a, first) && order.before(a, second) {
                    let missing = after & !order.rows[a];
                    if missing != 0 {
                        return Some((a, missing.trailing_zeros() as usize));
                    }
                }
            }
        }
    }
    None
}

/// The least order: the opening order closed under the rules.
pub fn close(operations: &[Operation], order: &mut Order) {
    while let Some((a, b)) = first_missing(operations, order) {
        order.record(a, b);
    }
}

/// A record's operations; the benchmark's records are all sound.
pub fn read(bytes: &[u8]) -> Vec<Operation> {
    let mut operations = Vec::with_capacity(32);
    for field in bytes[4..].chunks_exact(9) {
        let address = u16::from_be_bytes([field[5], field[6]]);
        let action = match field[4] {
            1 => Action::Load { address, source: field[7] },
            2 => Action::Store { address },
            3 => Action::Fence,
            _ => Action::Branch,
        };
        let dependence = if field[8] == 0xFF { None } else { Some(field[8]) };
        operations.push(Operation { thread: field[3], action, dependence });
    }
    operations
}

/// Pairs of the opening order.
pub fn opening_pairs(bytes: &[u8], code: u8) -> u32 {
    let operations = read(bytes);
    open(&operations, code).1.pairs(operations.len())
}

/// Pairs of the least order.
pub fn least_pairs(bytes: &[u8], code: u8) -> u32 {
    let operations = read(bytes);
    let (_, mut order) = open(&operations, code);
    close(&operations, &mut order);
    order.pairs(operations.len())
}

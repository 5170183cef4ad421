//! An independent judge: it shares no code and no idea with the one under test. It tries all orders, and closes relations
//! by going over every rule again and again until nothing changes. Slow, and easy to believe.

use crate::record::{Action, Operation};

/// A relation on operations: `relation[a][b]` says that a is before b.
pub type Relation = Vec<Vec<bool>>;

/// What a rule book keeps, by its code; codes above 3 are written tables, given by their entries.
#[derive(Clone)]
pub enum Book {
    Sc,
    Weak,
    WeakWithDependence,
    Table([u8; 16]),
}

fn kind(action: Action) -> usize {
    match action {
        Action::Load { .. } => 0,
        Action::Store { .. } => 1,
        Action::Fence => 2,
        Action::Branch => 3,
    }
}

fn address(action: Action) -> Option<u16> {
    match action {
        Action::Load { address, .. } | Action::Store { address } => Some(address),
        Action::Fence | Action::Branch => None,
    }
}

fn one_address(x: Operation, y: Operation) -> bool {
    address(x.action).is_some() && address(x.action) == address(y.action)
}

/// WEAK as a printed table: rows load, store, fence, branch.
const WEAK: [u8; 16] = [0, 2, 1, 0, 2, 2, 1, 0, 1, 1, 0, 0, 0, 1, 0, 1];

impl Book {
    pub fn keeps(&self, operations: &[Operation], a: usize, b: usize) -> bool {
        let (x, y) = (operations[a], operations[b]);
        let table = |entries: &[u8; 16]| match entries[4 * kind(x.action) + kind(y.action)] {
            0 => false,
            1 => true,
            _ => one_address(x, y),
        };
        match self {
            Book::Sc => true,
            Book::Weak => table(&WEAK),
            Book::WeakWithDependence => table(&WEAK) || y.dependence == Some(a as u8),
            Book::Table(entries) => table(entries),
        }
    }
}

pub fn local(operations: &[Operation], book: &Book) -> Relation {
    let n = operations.len();
    let mut relation = vec![vec![false; n]; n];
    for a in 0..n {
        for b in 0..n {
            let (s, t) = (operations[a].thread, operations[b].thread);
            relation[a][b] = (s == 0 && t != 0) || (s != 0 && s == t && a < b && book.keeps(operations, a, b));
        }
    }
    relation
}

/// Transitive closure, one pair at a time until nothing is new.
fn join(relation: &mut Relation) {
    let n = relation.len();
    loop {
        let mut changed = false;
        for a in 0..n {
            for b in 0..n {
                for c in 0..n {
                    if relation[a][b] && relation[b][c] && !relation[a][c] {
                        relation[a][c] = true;
                        changed = true;
                    }
                }
            }
        }
        if !changed {
            return;
        }
    }
}

/// The recorded order of a new case.
pub fn opening(operations: &[Operation], book: &Book) -> Relation {
    let mut relation = local(operations, book);
    for (l, operation) in operations.iter().enumerate() {
        if let Action::Load { source, .. } = operation.action {
            relation[source as usize][l] = true;
        }
    }
    join(&mut relation);
    relation
}

/// Closes a relation under joining and the rules a, b and c, read off their words.
pub fn close(operations: &[Operation], relation: &mut Relation) {
    let n = operations.len();
    loop {
        join(relation);
        let old = relation.clone();
        for l in 0..n {
            let Action::Load { address: x, source: seen } = operations[l].action else { continue };
            let seen = seen as usize;
            for s in 0..n {
                if operations[s].action != (Action::Store { address: x }) {
                    continue;
                }
                if old[s][l] && s != seen {
                    relation[s][seen] = true;
                }
                if old[seen][s] {
                    relation[l][s] = true;
                }
            }
            for k in 0..n {
                let Action::Load { address: y, source: other } = operations[k].action else { continue };
                let other = other as usize;
                if x != y || seen == other {
                    continue;
                }
                for a in 0..n {
                    for b in 0..n {
                        if old[a][l] && old[a][k] && old[seen][b] && old[other][b] {
                            relation[a][b] = true;
                        }
                    }
                }
            }
        }
        if *relation == old {
            return;
        }
    }
}

pub fn least(operations: &[Operation], book: &Book) -> Relation {
    let mut relation = opening(operations, book);
    close(operations, &mut relation);
    relation
}

pub fn pairs(relation: &Relation) -> usize {
    relation.iter().flatten().filter(|&&p| p).count()
}

pub fn cyclic(relation: &Relation) -> bool {
    (0..relation.len()).any(|a| relation[a][a])
}

/// m: pairs that are not recorded, an operation with itself too.
pub fn missing(relation: &Relation) -> usize {
    relation.len() * relation.len() - pairs(relation)
}

/// s: pairs of different stores to one address of which neither is before the other.
pub fn undecided(operations: &[Operation], relation: &Relation) -> usize {
    let n = operations.len();
    let store = |k: usize| matches!(operations[k].action, Action::Store { .. });
    let mut count = 0;
    for s in 0..n {
        for t in s + 1..n {
            if store(s) && store(t) && one_address(operations[s], operations[t]) && !relation[s][t] && !relation[t][s] {
                count += 1;
            }
        }
    }
    count
}

/// Is this list a serialization? By the words: all operations once, the local order kept, each source before its load and no
/// other store to that address between.
pub fn is_serialization(operations: &[Operation], local: &Relation, order: &[usize]) -> bool {
    let n = operations.len();
    let mut place = vec![None; n];
    for (i, &a) in order.iter().enumerate() {
        if a >= n || place[a].is_some() {
            return false;
        }
        place[a] = Some(i);
    }
    if order.len() != n {
        return false;
    }
    for a in 0..n {
        for b in 0..n {
            if local[a][b] && place[a] >= place[b] {
                return false;
            }
        }
    }
    for l in 0..n {
        let Action::Load { address: x, source } = operations[l].action else { continue };
        let seen = source as usize;
        if place[seen] >= place[l] {
            return false;
        }
        for t in 0..n {
            if operations[t].action == (Action::Store { address: x }) && place[seen] < place[t] && place[t] < place[l] {
                return false;
            }
        }
    }
    true
}

/// Tries all orders that keep the local order, memory by memory: some serialization, if there is one.
pub fn serialize(operations: &[Operation], book: &Book) -> Option<Vec<usize>> {
    let local = local(operations, book);
    let mut order = Vec::new();
    if place_next(operations, &local, &mut order) { Some(order) } else { None }
}

fn place_next(operations: &[Operation], local: &Relation, order: &mut Vec<usize>) -> bool {
    let n = operations.len();
    if order.len() == n {
        return is_serialization(operations, local, order);
    }
    for a in 0..n {
        if order.contains(&a) || (0..n).any(|x| local[x][a] && !order.contains(&x)) {
            continue;
        }
        if let Action::Load { address: x, source } = operations[a].action {
            let last = order.iter().rev().find(|&&s| operations[s].action == (Action::Store { address: x }));
            if last != Some(&(source as usize)) {
                continue;
            }
        }
        order.push(a);
        if place_next(operations, local, order) {
            return true;
        }
        order.pop();
    }
    false
}

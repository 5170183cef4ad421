//! Operations and their record, written from docs/FORMATS.md alone.

#[derive(Clone, Copy, PartialEq, Eq, Debug)]
pub enum Action {
    Load { address: u16, source: u8 },
    Store { address: u16 },
    Fence,
    Branch,
}

#[derive(Clone, Copy, PartialEq, Eq, Debug)]
pub struct Operation {
    pub thread: u8,
    pub action: Action,
    pub dependence: Option<u8>,
}

/// The bytes of a record.
pub fn write(operations: &[Operation]) -> Vec<u8> {
    let mut bytes = vec![0x10, 0, 1, 1];
    for operation in operations {
        let (kind, address, source) = match operation.action {
            Action::Load { address, source } => (1, address, source),
            Action::Store { address } => (2, address, 0xFF),
            Action::Fence => (3, 0, 0xFF),
            Action::Branch => (4, 0, 0xFF),
        };
        let [high, low] = address.to_be_bytes();
        let dependence = operation.dependence.unwrap_or(0xFF);
        bytes.extend([0x11, 0, 6, operation.thread, kind, high, low, source, dependence]);
    }
    bytes
}

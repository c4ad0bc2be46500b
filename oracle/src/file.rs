//! A file of trials under construction.

/// Trials past the wanted count are dropped.
pub struct Trials {
    bytes: Vec<u8>,
    left: usize,
}

impl Trials {
    pub fn new(count: usize) -> Trials {
        Trials { bytes: Vec::new(), left: count }
    }

    pub fn add(&mut self, kind: u8, payload: &[u8]) {
        if self.left > 0 {
            self.left -= 1;
            self.bytes.push(kind);
            self.bytes.extend((payload.len() as u32).to_le_bytes());
            self.bytes.extend(payload);
        }
    }

    pub fn is_full(&self) -> bool {
        self.left == 0
    }

    pub fn into_bytes(self) -> Vec<u8> {
        self.bytes
    }
}

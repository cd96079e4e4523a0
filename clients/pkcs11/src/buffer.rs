//! Bytes that may have PINs or values of keys in them: none of them stays in memory that is given back.

use crate::edge::system::wipe;

/// A list of bytes that is wiped where it is cleared, made longer elsewhere, or let go.
#[derive(Default)]
pub struct Buffer {
    bytes: Vec<u8>,
}

impl Buffer {
    /// A buffer of so many zeros.
    pub fn zeros(len: usize) -> Buffer {
        Buffer { bytes: vec![0; len] }
    }

    pub fn len(&self) -> usize {
        self.bytes.len()
    }

    pub fn bytes(&self) -> &[u8] {
        &self.bytes
    }

    pub fn bytes_mut(&mut self) -> &mut [u8] {
        &mut self.bytes
    }

    /// Makes room for so many bytes more.
    fn reserve(&mut self, more: usize) {
        let needed = self.bytes.len() + more;
        if needed > self.bytes.capacity() {
            let mut longer = Vec::with_capacity(needed.max(2 * self.bytes.capacity()).max(256));
            longer.extend_from_slice(&self.bytes);
            wipe(&mut self.bytes);
            self.bytes = longer;
        }
    }

    pub fn append(&mut self, bytes: &[u8]) {
        self.reserve(bytes.len());
        self.bytes.extend_from_slice(bytes);
    }

    /// Appends zeros, and returns where they stand.
    pub fn append_zeros(&mut self, len: usize) -> &mut [u8] {
        self.reserve(len);
        let from = self.bytes.len();
        self.bytes.resize(from + len, 0);
        &mut self.bytes[from..]
    }

    /// Wipes the first bytes, and leaves the length as it is.
    pub fn wipe_front(&mut self, len: usize) {
        let len = len.min(self.bytes.len());
        wipe(&mut self.bytes[..len]);
    }

    /// Wipes all bytes, and has none from then on.
    pub fn clear(&mut self) {
        wipe(&mut self.bytes);
        self.bytes.clear();
    }
}

impl Drop for Buffer {
    fn drop(&mut self) {
        wipe(&mut self.bytes);
    }
}

#[cfg(test)]
mod tests {
    use super::Buffer;

    #[test]
    fn what_is_appended_is_there() {
        let mut buffer = Buffer::default();
        for number in 0..1_000_u32 {
            buffer.append(&number.to_be_bytes());
        }
        buffer.append_zeros(2).copy_from_slice(&[7, 8]);
        assert_eq!(buffer.len(), 4_002);
        assert_eq!(buffer.bytes()[..8], [0, 0, 0, 0, 0, 0, 0, 1]);
        assert_eq!(buffer.bytes()[4_000..], [7, 8]);
    }

    #[test]
    fn what_is_wiped_is_zeros() {
        let mut buffer = Buffer::default();
        buffer.append(&[1, 2, 3]);
        buffer.wipe_front(2);
        assert_eq!(buffer.bytes(), [0, 0, 3]);
        buffer.clear();
        assert_eq!(buffer.len(), 0);
    }
}

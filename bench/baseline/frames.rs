//! Frames of memory, and which of them are free.

const FRAME_SIZE: usize = 4096;

pub struct Frames {
    /// Of each frame: its bytes, once one was stored.
    bytes: Vec<Option<Box<[u8; FRAME_SIZE]>>>,
    /// A bit for each free frame.
    free: Vec<u64>,
    /// No word before this one has a free frame.
    from: usize,
}

impl Frames {
    pub fn new(count: usize) -> Frames {
        let mut free = vec![u64::MAX; count / 64];
        free.push((1 << (count % 64)) - 1);
        Frames {
            bytes: (0..count).map(|_| None).collect(),
            free,
            from: 0,
        }
    }

    /// Takes the free frame with the least number, with zero bytes.
    pub fn take_least(&mut self) -> Option<u32> {
        while *self.free.get(self.from)? == 0 {
            self.from += 1;
        }
        let word = &mut self.free[self.from];
        let frame = self.from * 64 + word.trailing_zeros() as usize;
        *word &= *word - 1;
        if let Some(bytes) = &mut self.bytes[frame] {
            bytes.fill(0);
        }
        Some(frame as u32)
    }

    pub fn give(&mut self, frame: u32) {
        let word = frame as usize / 64;
        self.free[word] |= 1 << (frame % 64);
        self.from = self.from.min(word);
    }

    /// Gives a frame these bytes, and zeros after them.
    pub fn fill(&mut self, frame: u32, from: &[u8]) {
        let bytes = self.bytes[frame as usize].get_or_insert_with(|| Box::new([0; FRAME_SIZE]));
        bytes[..from.len()].copy_from_slice(from);
        bytes[from.len()..].fill(0);
    }

    /// Gives a frame all bytes of another.
    pub fn copy(&mut self, from: u32, to: u32) {
        match self.bytes[from as usize].take() {
            Some(bytes) => {
                self.fill(to, &bytes[..]);
                self.bytes[from as usize] = Some(bytes);
            }
            None => self.fill(to, &[]),
        }
    }

    pub fn byte(&self, frame: u32, offset: usize) -> u8 {
        match &self.bytes[frame as usize] {
            Some(bytes) => bytes[offset],
            None => 0,
        }
    }

    pub fn set_byte(&mut self, frame: u32, offset: usize, byte: u8) {
        self.bytes[frame as usize].get_or_insert_with(|| Box::new([0; FRAME_SIZE]))[offset] = byte;
    }
}

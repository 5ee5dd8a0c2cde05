//! Files that are open from the start: their bytes, and which frame caches each of their pages.

const PAGE_BYTES: usize = 4096;

pub struct File {
    pub can_read: bool,
    pub can_write: bool,
    bytes: Vec<u8>,
    cached: Vec<Option<u32>>,
}

impl File {
    pub fn new(can_read: bool, can_write: bool, len: usize, seed: u8) -> File {
        let bytes = (0..len).map(|i| seed.wrapping_add(i as u8)).collect();
        let cached = vec![None; len.div_ceil(PAGE_BYTES)];
        File {
            can_read,
            can_write,
            bytes,
            cached,
        }
    }

    pub fn has_page(&self, page: u64) -> bool {
        page < self.cached.len() as u64
    }

    pub fn cached(&self, page: u64) -> Option<u32> {
        self.cached[page as usize]
    }

    pub fn set_cached(&mut self, page: u64, frame: u32) {
        self.cached[page as usize] = Some(frame);
    }

    /// The bytes of a page that the file has, up to its end.
    pub fn page(&self, page: u64) -> &[u8] {
        let start = page as usize * PAGE_BYTES;
        &self.bytes[start..self.bytes.len().min(start + PAGE_BYTES)]
    }
}

//! In place of src/codec/store.rs: bytes out and in. They work, as the lent live words go in
//! through `LiveDocs::decode` of the source.
#[derive(Default)]
pub struct Out {
    pub buf: Vec<u8>,
}

impl Out {
    pub fn new() -> Self {
        Self::default()
    }
    pub fn write_byte(&mut self, b: u8) {
        self.buf.push(b);
    }
    pub fn write_bytes(&mut self, b: &[u8]) {
        self.buf.extend_from_slice(b);
    }
    pub fn write_int(&mut self, x: u32) {
        self.write_bytes(&x.to_le_bytes());
    }
    pub fn write_long(&mut self, x: u64) {
        self.write_bytes(&x.to_le_bytes());
    }
    pub fn write_vint(&mut self, mut x: u32) {
        while x > 0x7f {
            self.write_byte(x as u8 & 0x7f | 0x80);
            x >>= 7;
        }
        self.write_byte(x as u8);
    }
}

pub struct In<'a> {
    data: &'a [u8],
    pub pos: usize,
}

impl<'a> In<'a> {
    pub const fn new(data: &'a [u8], pos: usize) -> Self {
        Self { data, pos }
    }
    fn byte(&mut self) -> u8 {
        self.pos += 1;
        self.data[self.pos - 1]
    }
    pub fn read_vint(&mut self) -> u32 {
        let (mut x, mut shift) = (0, 0);
        loop {
            let b = self.byte();
            x |= u32::from(b & 0x7f) << shift;
            if b & 0x80 == 0 {
                return x;
            }
            shift += 7;
        }
    }
    pub fn read_long(&mut self) -> u64 {
        (0..8).fold(0, |x, i| x | u64::from(self.byte()) << (8 * i))
    }
}

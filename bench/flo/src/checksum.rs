//! Checksums: none, and CRC-16.

/// Bytes behind a packet by which damage is seen.
pub trait Checksum {
    /// How many bytes it has, at most 4.
    const WIDTH: usize;

    /// Its value; the bytes from `WIDTH` on are 0.
    fn value(&self, bytes: &[u8]) -> [u8; 4];

    /// Whether the last `WIDTH` bytes are the value of those before. False where there are too few.
    #[inline]
    fn fits(&self, bytes: &[u8]) -> bool {
        bytes.split_at_checked(bytes.len().wrapping_sub(Self::WIDTH)).is_some_and(|(packet, value)| self.value(packet)[..Self::WIDTH] == *value)
    }
}

#[derive(Clone, Copy, Debug, Default)]
pub struct NoChecksum;

impl Checksum for NoChecksum {
    const WIDTH: usize = 0;

    #[inline]
    fn value(&self, _: &[u8]) -> [u8; 4] {
        [0; 4]
    }
}

#[derive(Clone, Copy, Debug, Default)]
pub struct Crc16;

impl Checksum for Crc16 {
    const WIDTH: usize = 2;

    #[inline]
    fn value(&self, bytes: &[u8]) -> [u8; 4] {
        let [high, low] = crc16(bytes).to_be_bytes();
        [high, low, 0, 0]
    }
}

const GENERATOR: u16 = 0x1021;
const STEP: usize = 16;

/// `TABLES[k][b]` is what a byte b leaves in the register when k more bytes have followed it.
static TABLES: [[u16; 256]; STEP] = tables();

const fn tables() -> [[u16; 256]; STEP] {
    let mut all = [[0; 256]; STEP];
    let mut b = 0;
    while b < 256 {
        let mut register = (b as u16) << 8;
        let mut bit = 0;
        while bit < 8 {
            register = if register & 0x8000 != 0 { register << 1 ^ GENERATOR } else { register << 1 };
            bit += 1;
        }
        all[0][b] = register;
        b += 1;
    }
    let mut k = 1;
    while k < STEP {
        let mut b = 0;
        while b < 256 {
            let before = all[k - 1][b];
            all[k][b] = before << 8 ^ all[0][(before >> 8) as usize];
            b += 1;
        }
        k += 1;
    }
    all
}

/// CRC-16 with the register starting at 0xFFFF, sixteen bytes a step. The first two bytes of a step meet the register, so
/// they are looked up last, when the rest is done.
pub fn crc16(bytes: &[u8]) -> u16 {
    let (blocks, tail) = bytes.as_chunks::<STEP>();
    let mut register: u16 = 0xffff;
    for block in blocks {
        let [high, low] = register.to_be_bytes();
        let mut rest = 0;
        for i in 2..STEP {
            rest ^= TABLES[STEP - 1 - i][block[i] as usize];
        }
        register = rest ^ TABLES[STEP - 1][(block[0] ^ high) as usize] ^ TABLES[STEP - 2][(block[1] ^ low) as usize];
    }
    for &b in tail {
        register = register << 8 ^ TABLES[0][((register >> 8) as u8 ^ b) as usize];
    }
    register
}

#[cfg(test)]
mod tests {
    use super::*;

    /// Bit by bit, as the definition has it.
    fn slow(bytes: &[u8]) -> u16 {
        let mut register: u16 = 0xffff;
        for &b in bytes {
            for bit in (0..8).rev() {
                let out = register >> 15 ^ (b >> bit & 1) as u16;
                register = register << 1 ^ if out == 1 { GENERATOR } else { 0 };
            }
        }
        register
    }

    #[test]
    fn the_digits() {
        assert_eq!(crc16(b"123456789"), 0x29b1);
        assert_eq!(Crc16.value(b"123456789"), [0x29, 0xb1, 0, 0]);
        assert!(Crc16.fits(b"123456789\x29\xb1"));
        assert!(!Crc16.fits(b"123456789\x29\xb0"));
        assert!(!Crc16.fits(b"1"));
        assert!(NoChecksum.fits(b""));
    }

    #[test]
    fn as_bit_by_bit() {
        let bytes: Vec<u8> = (0..300u32).map(|i| (i * i >> 3) as u8).collect();
        for n in 0..bytes.len() {
            assert_eq!(crc16(&bytes[..n]), slow(&bytes[..n]), "{n} bytes");
        }
    }
}

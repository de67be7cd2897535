//! Numbers and masks in byte strings, little-endian.

pub fn p16(out: &mut Vec<u8>, x: u16) {
    out.extend_from_slice(&x.to_le_bytes());
}

pub fn p32(out: &mut Vec<u8>, x: u32) {
    out.extend_from_slice(&x.to_le_bytes());
}

pub fn g32(b: &[u8], at: usize) -> u32 {
    u32::from_le_bytes([b[at], b[at + 1], b[at + 2], b[at + 3]])
}

pub fn u16_at(b: &[u8], at: usize) -> usize {
    b[at] as usize | (b[at + 1] as usize) << 8
}

/// Writes the low 16 bits.
pub fn set_u16(b: &mut [u8], at: usize, x: usize) {
    b[at] = x as u8;
    b[at + 1] = (x >> 8) as u8;
}

pub fn mask_bit(b: &[u8], i: usize) -> bool {
    b[i / 8] >> (i % 8) & 1 == 1
}

pub fn set_bit(b: &mut [u8], i: usize) {
    b[i / 8] |= 1 << (i % 8);
}

/// Bytes of a mask.
pub fn width(wide: bool) -> usize {
    if wide {
        32
    } else {
        8
    }
}

pub fn mask(out: &mut Vec<u8>, bits: impl Iterator<Item = usize>, wide: bool) {
    let mut m = [0u8; 32];
    for i in bits {
        set_bit(&mut m, i);
    }
    assert!(wide || m[8..].iter().all(|b| *b == 0), "narrow mask");
    out.extend_from_slice(&m[..width(wide)]);
}

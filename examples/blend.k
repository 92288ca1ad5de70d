// Bytes of a and b mixed by weights w of 256: (a * w + b * (256 - w)) / 256.
kernel blend(y: [u8], a: [u8], b: [u8], w: [u8], n: u64) { for i in 0..n { let v = w[i] as u16; y[i] = (a[i] as u16 * v + b[i] as u16 * (256 - v) >> 8) as u8; } }

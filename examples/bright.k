// Brighter pixels, none above 255.
kernel bright(p: [u8], n: u64) { for i in 0..n { let v = p[i] as u16 + 40; p[i] = min(v, 255) as u8; } }

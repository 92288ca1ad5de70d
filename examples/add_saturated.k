// y = y + x on bytes, where a sum above 255 is 255.
kernel add_saturated(y: [u8], x: [u8], n: u64) { for i in 0..n { y[i] = min(y[i] as u16 + x[i] as u16, 255) as u8; } }

// One more than each byte of x. The arrays may overlap.
kernel inc(y: [u8], x: [u8], n: u64) { for i in 0..n { y[i] = x[i] + 1; } }

// n bytes of one value.
kernel fill(a: [u8], v: u8, n: u64) { for i in 0..n { a[i] = v; } }

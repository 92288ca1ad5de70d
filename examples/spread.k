// Each element is a copy of the one before it: what an iteration writes the next one reads, so this runs as scalar code.
kernel spread(a: [u8], n: u64) { for i in 0..n { a[i + 1] = a[i]; } }

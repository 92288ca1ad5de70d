// The first place at which one of two strings ends. The second is read only where the first goes on.
kernel either(a: [u8], b: [u8], n: u64) -> u64 { for i in 0..n { break if a[i] == 0 || b[i] == 0; } return i; }

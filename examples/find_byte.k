// The place of the first byte c, or n (memchr).
kernel find_byte(a: [u8], c: u8, n: u64) -> u64 { for i in 0..n { break if a[i] == c; } return i; }

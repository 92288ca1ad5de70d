// How many bytes stand before the first that is no ASCII, or n.
kernel ascii(a: [u8], n: u64) -> u64 { for i in 0..n { break if a[i] >= 128; } return i; }

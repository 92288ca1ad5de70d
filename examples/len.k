// The length of a string: the place of its first zero, or n.
kernel len(a: [u8], n: u64) -> u64 { for i in 0..n { break if a[i] == 0; } return i; }

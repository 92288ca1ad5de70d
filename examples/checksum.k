// The Internet checksum of n 16-bit words (n at most 2^32): their sum in ones' complement, and its complement.
kernel checksum(a: [u16], n: u64) -> u64 { var s: u64 = 0; for i in 0..n { s += a[i] as u64; } return ~(((s & 0xffff) + (s >> 16) & 0xffff) + ((s & 0xffff) + (s >> 16) >> 16)) & 0xffff; }

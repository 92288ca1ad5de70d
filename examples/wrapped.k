// Sums come of arithmetic modulo 256: 255 + 1 is 0.
kernel wrapped(a: [u8], b: [i32], n: u64) -> i32 { var c: i32 = 0; for i in 0..n { if a[i] + 1 == 0 { c += b[i]; } } return c; }

// A sum of bytes, modulo 256.
kernel total(a: [i8], n: u64) -> i8 { var s: i8 = 0; for i in 0..n { s += a[i]; } return s; }

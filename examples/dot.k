// The scalar product of two arrays.
kernel dot(a: [i16], b: [i16], n: u64) -> i64 { var s: i64 = 0; for i in 0..n { s += a[i] as i64 * b[i] as i64; } return s; }

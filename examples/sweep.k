// The kernel of `svec sweep 1`: scaled sums, kept and added up where they are large or a byte is 7, with the greatest of the others.
kernel sweep(a: [i16], b: [u8], y: [i32], k: i32, n: u64) -> i64 { var s: i64 = 0; var m: i32 = 90; for i in 0..n { let t = a[i] as i32 * k + b[i + 6] as i32; if t > 384 || b[i] == 7 { y[i] = t; s += t as i64; } else { m max= t; } } return s + m as i64; }

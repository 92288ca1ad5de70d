// The least of n bytes, and of 7.
kernel low(a: [i8], n: u64) -> i8 { var m: i8 = 7; for i in 0..n { m min= a[i]; } return m; }

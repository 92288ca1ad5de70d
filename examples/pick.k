// The sum of the elements of t at the places in x.
kernel pick(t: [i32], x: [u64], n: u64) -> i64 { var s: i64 = 0; for i in 0..n { s += t[x[i]] as i64; } return s; }

// Each element becomes the sum up to it.
kernel pre(a: [u64], n: u64) { var s: u64 = 0; for i in 0..n { s += a[i]; a[i] = s; } }

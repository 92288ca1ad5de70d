// Samples held between two bounds.
kernel clamp(a: [i16], low: i16, high: i16, n: u64) { for i in 0..n { a[i] = min(max(a[i], low), high); } }

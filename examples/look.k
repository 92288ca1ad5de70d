// Each element of y from a table, by the bytes of x.
kernel look(t: [u8], x: [u8], y: [u64], n: u64) { for i in 0..n { y[i] = t[x[i]] as u64; } }

// Bytes of c where those of a are not zero. What is not copied is not read.
kernel copy(a: [u8], b: [u8], c: [u8], n: u64) { for i in 0..n { if a[i] != 0 { b[i] = c[i]; } } }

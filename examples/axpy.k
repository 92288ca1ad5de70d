// y = y + k * x, element by element.
kernel axpy(y: [i32], x: [i32], k: i32, n: u64) { for i in 0..n { y[i] = y[i] + k * x[i]; } }

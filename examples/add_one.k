// One more than the argument, modulo 2^64.
kernel f(x: u64) -> u64 { return x + 1; }

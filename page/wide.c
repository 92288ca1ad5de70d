// Numbers of 128 bits, which WebAssembly lacks: what clang calls for them.
typedef unsigned long long u64;
typedef __int128 i128;
typedef unsigned __int128 u128;

static u128 joined(u64 low, u64 high) {
  union { u64 part[2]; u128 whole; } it = {{low, high}};
  return it.whole;
}

static u64 low_of(u128 a) {
  union { u128 whole; u64 part[2]; } it = {a};
  return it.part[0];
}

static u64 high_of(u128 a) {
  union { u128 whole; u64 part[2]; } it = {a};
  return it.part[1];
}

i128 __multi3(i128 a, i128 b) {
  u64 x = low_of(a), y = low_of(b), x0 = x & 0xffffffff, x1 = x >> 32, y0 = y & 0xffffffff, y1 = y >> 32;
  u64 low = x0 * y0, middle = x1 * y0 + (low >> 32), other = x0 * y1 + (middle & 0xffffffff);
  u64 high = x1 * y1 + (middle >> 32) + (other >> 32) + x * high_of(b) + high_of(a) * y;
  return joined(other << 32 | (low & 0xffffffff), high);
}

i128 __ashlti3(i128 a, int by) {
  u64 low = low_of(a), high = high_of(a);
  if (by & 64) return joined(0, low << (by & 63));
  return by & 63 ? joined(low << (by & 63), high << (by & 63) | low >> (64 - (by & 63))) : a;
}

i128 __lshrti3(i128 a, int by) {
  u64 low = low_of(a), high = high_of(a);
  if (by & 64) return joined(high >> (by & 63), 0);
  return by & 63 ? joined(low >> (by & 63) | high << (64 - (by & 63)), high >> (by & 63)) : a;
}

i128 __ashrti3(i128 a, int by) {
  u64 low = low_of(a), high = high_of(a);
  long long top = (long long)high;
  if (by & 64) return joined((u64)(top >> (by & 63)), (u64)(top >> 63));
  return by & 63 ? joined(low >> (by & 63) | high << (64 - (by & 63)), (u64)(top >> (by & 63))) : a;
}

static int is_below(u64 low, u64 high, u64 other_low, u64 other_high) { return high < other_high || (high == other_high && low < other_low); }

// Bit by bit, from the top.
static u128 divided(u128 a, u128 b, u128 *rest) {
  u64 low = low_of(a), high = high_of(a), by_low = low_of(b), by_high = high_of(b), left_low = 0, left_high = 0, q_low = 0, q_high = 0;
  for (int n = 0; n < 128; n++) {
    u64 out = left_high >> 63;
    left_high = left_high << 1 | left_low >> 63;
    left_low = left_low << 1 | high >> 63;
    high = high << 1 | low >> 63;
    low <<= 1;
    q_high = q_high << 1 | q_low >> 63;
    q_low <<= 1;
    if (out || !is_below(left_low, left_high, by_low, by_high)) {
      left_high -= by_high + (left_low < by_low);
      left_low -= by_low;
      q_low |= 1;
    }
  }
  *rest = joined(left_low, left_high);
  return joined(q_low, q_high);
}

static u128 less(u128 a) { return joined(~low_of(a) + 1, ~high_of(a) + (low_of(a) == 0)); }
static int is_negative(u128 a) { return high_of(a) >> 63; }
static u128 size_of(u128 a) { return is_negative(a) ? less(a) : a; }

u128 __udivti3(u128 a, u128 b) {
  u128 rest;
  return divided(a, b, &rest);
}

u128 __umodti3(u128 a, u128 b) {
  u128 rest;
  divided(a, b, &rest);
  return rest;
}

i128 __divti3(i128 a, i128 b) {
  u128 rest, whole = divided(size_of(a), size_of(b), &rest);
  return is_negative(a) != is_negative(b) ? less(whole) : whole;
}

i128 __modti3(i128 a, i128 b) {
  u128 rest;
  divided(size_of(a), size_of(b), &rest);
  return is_negative(a) ? less(rest) : rest;
}

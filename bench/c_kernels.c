// The kernels of examples/ as a C programmer writes them, for bench/c_code and bench/from_c: each by the name of its file.
#include <stdint.h>
typedef int8_t i8;
typedef int16_t i16;
typedef int32_t i32;
typedef int64_t i64;
typedef uint8_t u8;
typedef uint16_t u16;
typedef uint32_t u32;
typedef uint64_t u64;

// A call of a kernel is one, whatever a compiler knows of it.
#ifdef __clang__
#define KERNEL __attribute__((noinline))
#else
#define KERNEL __attribute__((noipa))
#endif

KERNEL void axpy(u32 *y, u32 *x, u32 k, u64 n) { for (u64 i = 0; i < n; i++) y[i] += k * x[i]; }
KERNEL void fill(u8 *a, u8 v, u64 n) { for (u64 i = 0; i < n; i++) a[i] = v; }
KERNEL u64 len(u8 *a, u64 n) { u64 i; for (i = 0; i < n; i++) if (a[i] == 0) break; return i; }
KERNEL u64 either(u8 *a, u8 *b, u64 n) { u64 i; for (i = 0; i < n; i++) if (a[i] == 0 || b[i] == 0) break; return i; }
KERNEL void inc(u8 *y, u8 *x, u64 n) { for (u64 i = 0; i < n; i++) y[i] = x[i] + 1; }
KERNEL i64 dot(i16 *a, i16 *b, u64 n) { i64 s = 0; for (u64 i = 0; i < n; i++) s += (i64)a[i] * b[i]; return s; }
KERNEL i8 low(i8 *a, u64 n) { i8 m = 7; for (u64 i = 0; i < n; i++) m = a[i] < m ? a[i] : m; return m; }
KERNEL u32 wrapped(u8 *a, u32 *b, u64 n) { u32 c = 0; for (u64 i = 0; i < n; i++) if ((u8)(a[i] + 1) == 0) c += b[i]; return c; }
KERNEL u8 total(u8 *a, u64 n) { u8 s = 0; for (u64 i = 0; i < n; i++) s += a[i]; return s; }
KERNEL void copy(u8 *a, u8 *b, u8 *c, u64 n) { for (u64 i = 0; i < n; i++) if (a[i] != 0) b[i] = c[i]; }
KERNEL void bright(u8 *p, u64 n) { for (u64 i = 0; i < n; i++) { u16 v = p[i] + 40; p[i] = v < 255 ? v : 255; } }
KERNEL i64 sweep(i16 *a, u8 *b, i32 *y, u32 k, u64 n) {
  i64 s = 0;
  i32 m = 90;
  for (u64 i = 0; i < n; i++) {
    i32 t = (i32)((u32)a[i] * k + b[i + 6]);
    if (t > 384 || b[i] == 7) { y[i] = t; s += t; } else { m = t > m ? t : m; }
  }
  return s + m;
}
KERNEL void spread(u8 *a, u64 n) { for (u64 i = 0; i < n; i++) a[i + 1] = a[i]; }
KERNEL void prefix(u64 *a, u64 n) { u64 s = 0; for (u64 i = 0; i < n; i++) { s += a[i]; a[i] = s; } }
KERNEL u64 add_one(u64 x) { return x + 1; }
KERNEL void add_saturated(u8 *y, u8 *x, u64 n) { for (u64 i = 0; i < n; i++) { u16 v = y[i] + x[i]; y[i] = v < 255 ? v : 255; } }
KERNEL u64 ascii(u8 *a, u64 n) { u64 i; for (i = 0; i < n; i++) if (a[i] >= 128) break; return i; }
KERNEL void blend(u8 *y, u8 *a, u8 *b, u8 *w, u64 n) { for (u64 i = 0; i < n; i++) y[i] = (a[i] * w[i] + b[i] * (256 - w[i])) / 256; }
KERNEL u64 checksum(u16 *a, u64 n) {
  u64 s = 0;
  for (u64 i = 0; i < n; i++) s += a[i];
  s = (s & 0xffff) + (s >> 16);
  return 0xffff - (((s & 0xffff) + (s >> 16)) & 0xffff);
}
KERNEL void clamp(i16 *a, i16 low, i16 high, u64 n) {
  for (u64 i = 0; i < n; i++) { i16 v = a[i] > low ? a[i] : low; a[i] = v < high ? v : high; }
}
KERNEL u64 find_byte(u8 *a, u8 c, u64 n) { u64 i; for (i = 0; i < n; i++) if (a[i] == c) break; return i; }
KERNEL void look(u8 *t, u8 *x, u64 *y, u64 n) { for (u64 i = 0; i < n; i++) y[i] = t[x[i]]; }
KERNEL i64 pick(i32 *t, u64 *x, u64 n) { i64 s = 0; for (u64 i = 0; i < n; i++) s += t[x[i]]; return s; }

#ifdef NAME
static u8 pages[3][131072];

// The kernel NAME with the arguments WORDS (of which A, B and C are arrays of bytes that are 1) and then COUNT.
void _start(void) {
  u64 a = (u64)pages[0], b = (u64)pages[1], c = (u64)pages[2];
  for (u64 i = 0; i < sizeof pages; i++) ((volatile u8 *)pages)[i] = 1;
  asm volatile("" ::: "memory");
  NAME(WORDS COUNT);
  asm volatile("mov x8, #93\n mov x0, #0\n svc #0");
}
#endif

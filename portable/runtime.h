/* What the C that wasm_to_c.py writes stands on: the numbers, the memory and the vectors of WebAssembly. No proof covers this file. */
#define ALIGNED __attribute__((aligned(16)))
#define INLINE static inline __attribute__((unused))

typedef uint8_t u8;
typedef uint16_t u16;
typedef uint32_t u32;
typedef uint64_t u64;
typedef int8_t s8;
typedef int16_t s16;
typedef int32_t s32;
typedef int64_t s64;
typedef double f64;

/* Loads and stores. An address need not be aligned. */
INLINE void *at(u64 a) { return (void *)(uintptr_t)a; }
#define PLACE(N, GIVEN) \
    INLINE GIVEN r##N(u64 a) { u##N v; memcpy(&v, at(a), sizeof v); return v; } \
    INLINE void w##N(u64 a, u64 n) { u##N v = (u##N)n; memcpy(at(a), &v, sizeof v); }
PLACE(8, u32)
PLACE(16, u32)
PLACE(32, u32)
PLACE(64, u64)
INLINE f64 rf(u64 a) { f64 v; memcpy(&v, at(a), sizeof v); return v; }
INLINE void wf(u64 a, f64 v) { memcpy(at(a), &v, sizeof v); }
INLINE void copy(u64 to, u64 from, u64 size) { memmove(at(to), at(from), size); }
INLINE void fill(u64 to, u32 byte, u64 size) { memset(at(to), (int)byte, size); }

/* Numbers. */
#define never() __builtin_trap()
#define is(comparison) ((u32)(comparison))
INLINE u64 bits_of(f64 x) { u64 n; memcpy(&n, &x, 8); return n; }
INLINE f64 of_bits(u64 n) { f64 x; memcpy(&x, &n, 8); return x; }
INLINE u32 clz32(u32 n) { return n ? (u32)__builtin_clz(n) : 32; }
INLINE u32 ctz32(u32 n) { return n ? (u32)__builtin_ctz(n) : 32; }
INLINE u32 pop32(u32 n) { return (u32)__builtin_popcount(n); }
INLINE u64 clz64(u64 n) { return n ? (u64)__builtin_clzll(n) : 64; }
INLINE u64 ctz64(u64 n) { return n ? (u64)__builtin_ctzll(n) : 64; }
INLINE u64 pop64(u64 n) { return (u64)__builtin_popcountll(n); }
INLINE u32 rotl32(u32 a, u32 n) { return a << (n & 31) | a >> (-n & 31); }
INLINE u32 rotr32(u32 a, u32 n) { return a >> (n & 31) | a << (-n & 31); }
INLINE u64 rotl64(u64 a, u64 n) { return a << (n & 63) | a >> (-n & 63); }
INLINE u64 rotr64(u64 a, u64 n) { return a >> (n & 63) | a << (-n & 63); }
INLINE u64 sat_u64(f64 x) { return !(x > 0) ? 0 : x >= 18446744073709551616.0 ? UINT64_MAX : (u64)x; }
INLINE u64 sat_s64(f64 x) { return x != x ? 0 : x <= -9223372036854775808.0 ? (u64)INT64_MIN : x >= 9223372036854775808.0 ? INT64_MAX : (u64)(s64)x; }
INLINE u32 sat_u32(f64 x) { return !(x > 0) ? 0 : x >= 4294967296.0 ? UINT32_MAX : (u32)x; }
INLINE u32 sat_s32(f64 x) { return x != x ? 0 : x <= -2147483648.0 ? (u32)INT32_MIN : x >= 2147483648.0 ? INT32_MAX : (u32)(s32)x; }

/* Vectors of 16 bytes: GNU C's, which GCC and clang have for every processor. */
typedef u8 v128 __attribute__((vector_size(16)));
#define LANES(T) \
    typedef T w_##T __attribute__((vector_size(16))); \
    INLINE T lane_##T(v128 v, int k) { return ((w_##T)v)[k]; } \
    INLINE v128 with_##T(v128 v, int k, u64 n) { w_##T w = (w_##T)v; w[k] = (T)n; return (v128)w; } \
    INLINE v128 min_##T(v128 a, v128 b) { v128 m = (v128)((w_##T)a < (w_##T)b); return (a & m) | (b & ~m); } \
    INLINE v128 max_##T(v128 a, v128 b) { v128 m = (v128)((w_##T)a > (w_##T)b); return (a & m) | (b & ~m); }
LANES(u8)
LANES(s8)
LANES(u16)
LANES(s16)
LANES(u32)
LANES(s32)
LANES(u64)
LANES(s64)
INLINE v128 rv(u64 a) { v128 v; memcpy(&v, at(a), 16); return v; }
INLINE void wv(u64 a, v128 v) { memcpy(at(a), &v, 16); }
INLINE v128 pair(u64 low, u64 high) { return (v128)(w_u64){low, high}; }
INLINE v128 of_u64(u64 n) { return pair(n, 0); }
INLINE v128 splat_64(u64 n) { return pair(n, n); }
INLINE v128 splat_8(u32 n) { return splat_64((u8)n * 0x0101010101010101ull); }
INLINE v128 splat_16(u32 n) { return splat_64((u16)n * 0x0001000100010001ull); }
INLINE v128 splat_32(u32 n) { return splat_64(n * 0x0000000100000001ull); }
INLINE u32 any(v128 v) { return is(((w_u64)v)[0] | ((w_u64)v)[1] ? 1 : 0); }
INLINE u32 all_8(v128 v) { return !any((v128)((w_u8)v == 0)); }
INLINE u32 all_16(v128 v) { return !any((v128)((w_u16)v == 0)); }
INLINE u32 all_32(v128 v) { return !any((v128)((w_u32)v == 0)); }
INLINE u32 all_64(v128 v) { return !any((v128)((w_u64)v == 0)); }
#define shuffle(a, b, ...) __builtin_shufflevector(a, b, __VA_ARGS__)

/* The highest bit of each byte. */
#if defined(__SSE2__)
#include <emmintrin.h>
INLINE u32 bitmask(v128 v) { return (u32)_mm_movemask_epi8((__m128i)v); }
#else
INLINE u64 high_bits(u64 n) { return ((n >> 7 & 0x0101010101010101ull) * 0x0102040810204080ull) >> 56; }
INLINE u32 bitmask(v128 v) { return (u32)(high_bits(((w_u64)v)[0]) | high_bits(((w_u64)v)[1]) << 8); }
#endif

/* The bytes of one vector at the places in another; 0 for a place from 16 on. */
#if defined(__SSSE3__)
#include <tmmintrin.h>
INLINE v128 swizzle(v128 a, v128 n) { return (v128)_mm_shuffle_epi8((__m128i)a, (__m128i)(n | (v128)((w_u8)n > 15))); }
#elif defined(__aarch64__)
#include <arm_neon.h>
INLINE v128 swizzle(v128 a, v128 n) { return (v128)vqtbl1q_u8((uint8x16_t)a, (uint8x16_t)n); }
#else
INLINE v128 swizzle(v128 a, v128 n) {
    u8 from[16], to[16];
    memcpy(from, &a, 16);
    memcpy(to, &n, 16);
    for (int k = 0; k < 16; k++) to[k] = to[k] < 16 ? from[to[k]] : 0;
    memcpy(&a, to, 16);
    return a;
}
#endif

/* Each half with lanes of twice the size, and two vectors with lanes of half the size. */
#define WIDER(N, FROM, COUNT) \
    INLINE v128 low_u##N(v128 v) { w_u##N w; for (int k = 0; k < COUNT; k++) w[k] = ((w_u##FROM)v)[k]; return (v128)w; } \
    INLINE v128 high_u##N(v128 v) { w_u##N w; for (int k = 0; k < COUNT; k++) w[k] = ((w_u##FROM)v)[COUNT + k]; return (v128)w; } \
    INLINE v128 low_s##N(v128 v) { w_s##N w; for (int k = 0; k < COUNT; k++) w[k] = ((w_s##FROM)v)[k]; return (v128)w; } \
    INLINE v128 high_s##N(v128 v) { w_s##N w; for (int k = 0; k < COUNT; k++) w[k] = ((w_s##FROM)v)[COUNT + k]; return (v128)w; }
WIDER(16, 8, 8)
WIDER(32, 16, 4)
WIDER(64, 32, 2)
#define NARROWER(T, FROM, COUNT, LEAST, MOST) \
    INLINE v128 narrow_##T(v128 a, v128 b) { \
        w_##T w; \
        for (int k = 0; k < 2 * COUNT; k++) { \
            FROM n = k < COUNT ? ((w_##FROM)a)[k] : ((w_##FROM)b)[k - COUNT]; \
            w[k] = (T)(n < LEAST ? LEAST : n > MOST ? MOST : n); \
        } \
        return (v128)w; \
    }
NARROWER(u8, s16, 8, 0, UINT8_MAX)
NARROWER(s8, s16, 8, INT8_MIN, INT8_MAX)
NARROWER(u16, s32, 4, 0, UINT16_MAX)
NARROWER(s16, s32, 4, INT16_MIN, INT16_MAX)

/* Numbers of 128 bits, in two halves of which the low one comes first. Each result is stored at an address. */
typedef unsigned __int128 u128;
typedef __int128 s128;
INLINE u128 join(u64 low, u64 high) { return (u128)high << 64 | low; }
INLINE void answer(u64 to, u128 n) { w64(to, (u64)n); w64(to + 8, (u64)(n >> 64)); }
INLINE u128 size_of(u128 n) { return n >> 127 ? -n : n; }
INLINE u128 quotient(u128 n, u128 by) { u128 size = size_of(n) / size_of(by); return (n ^ by) >> 127 ? -size : size; }
INLINE void host___multi3(u64 to, u64 a, u64 b, u64 c, u64 d) { answer(to, join(a, b) * join(c, d)); }
INLINE void host___divti3(u64 to, u64 a, u64 b, u64 c, u64 d) { answer(to, quotient(join(a, b), join(c, d))); }
INLINE void host___udivti3(u64 to, u64 a, u64 b, u64 c, u64 d) { answer(to, join(a, b) / join(c, d)); }
INLINE void host___modti3(u64 to, u64 a, u64 b, u64 c, u64 d) { answer(to, join(a, b) - quotient(join(a, b), join(c, d)) * join(c, d)); }
INLINE void host___ashlti3(u64 to, u64 a, u64 b, u32 n) { answer(to, join(a, b) << (n & 127)); }
INLINE void host___lshrti3(u64 to, u64 a, u64 b, u32 n) { answer(to, join(a, b) >> (n & 127)); }
INLINE void host___ashrti3(u64 to, u64 a, u64 b, u32 n) { answer(to, (u128)((s128)join(a, b) >> (n & 127))); }

/* What the program calls of the system. */
INLINE u64 host_ctd_alloc(u64 size) { return size > SIZE_MAX ? 0 : (u64)(uintptr_t)malloc((size_t)size); }
INLINE u64 host_ctd_resize(u64 block, u64 size) { return size > SIZE_MAX ? 0 : (u64)(uintptr_t)realloc(at(block), (size_t)size); }
INLINE void host_ctd_free(u64 block) { free(at(block)); }
INLINE u32 host_ctd_open(u64 path, u32 flags) { return (u32)ctd_open(at(path), (s32)flags); }
INLINE u64 host_ctd_read(u32 file, u64 to, u64 size) { return (u64)ctd_read((s32)file, at(to), size); }
INLINE u64 host_ctd_write(u32 file, u64 from, u64 size) { return (u64)ctd_write((s32)file, at(from), size); }
INLINE u32 host_ctd_close(u32 file) { return (u32)ctd_close((s32)file); }
INLINE u32 host_ctd_errno(void) { return (u32)ctd_errno(); }
INLINE void host_ctd_set_errno(u32 number) { ctd_set_errno((s32)number); }
INLINE u64 host_ctd_arg(u64 number, u64 to, u64 size) { return (u64)ctd_arg(number, at(to), size); }

/* The stack of what the program takes the address of, and how low it may grow: a leaf uses up to 128 bytes below. */
#define RESERVE 4096
#ifdef CHECKTESTDATA_LIBRARY
#define PER_THREAD __thread
#else
#define PER_THREAD
#endif
#if IN_PART(0)
SHARED PER_THREAD u64 sp, sp_least;
#else
extern SHARED PER_THREAD u64 sp, sp_least;
#endif
INLINE void set_sp(u64 a) {
    if (a < sp_least) never();
    sp = a;
}

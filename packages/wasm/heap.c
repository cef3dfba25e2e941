// The heap of the WebAssembly module, and what LLVM calls of a C library: in the place of the kit's C code, which isn't made for
// WebAssembly. It is trusted, as malloc of a C library is, and tried by tests/web.
//
// A block is a multiple of 16 bytes; its first 8 hold its size class, and the rest is its user's. A block that is given back waits in the
// list of its class. New ones are cut from the end of the memory, which grows by an eighth at a time.
typedef unsigned char u8;
typedef unsigned long long u64;
typedef __int128 i128;
typedef unsigned __int128 u128;

enum { SMALL_CLASSES = 64, CLASSES = 192, HEAD = 8, ALIGNMENT = 16, PAGE_BITS = 16 };
static const u64 MOST = 1ull << 40;

struct waiting { struct waiting *next; };
struct answer { u64 is_made; u8 *at; };

extern u8 __heap_base;
static u8 *top, *end;
static u64 in_use;
static struct waiting *lists[CLASSES];

// How many bytes a block of this class holds: 24, 40, .. 1032, and from there on four classes to each doubling.
static u64 room_of(u64 class) {
  if (class < SMALL_CLASSES) return 16 * class + 24;
  u64 doubling = (class - SMALL_CLASSES) >> 2, quarter = (class - SMALL_CLASSES) & 3;
  return (1024ull << doubling) + (256ull << doubling) * (quarter + 1) + 8;
}

// The least class that holds so many bytes.
static u64 class_of(u64 bytes) {
  if (bytes <= 24) return 0;
  if (bytes <= 1032) return (bytes - 24 + 15) >> 4;
  u64 last = bytes - 9, doubling = 53 - __builtin_clzll(last);
  return SMALL_CLASSES + (doubling << 2) + ((last - (1024ull << doubling)) >> (8 + doubling));
}

// Whether the memory has grown by so many pages. One of 32 bits answers a refusal by 2^32 - 1, one of 64 bits by 2^64 - 1.
static int has_grown(u64 pages) { return (unsigned)__builtin_wasm_memory_grow(0, pages) != (unsigned)-1; }
static u8 *end_of_memory(void) { return (u8 *)((u64)__builtin_wasm_memory_size(0) << PAGE_BITS); }

// A new block of so many bytes behind its head, or null where the memory can't grow.
static u8 *cut(u64 room) {
  if (!top) {
    top = (u8 *)((((u64)&__heap_base + ALIGNMENT - 1) & ~(u64)(ALIGNMENT - 1)) + HEAD);
    end = end_of_memory();
  }
  u64 wanted = room + HEAD;
  if (end < top || (u64)(end - top) < wanted + ALIGNMENT) {
    u64 least = ((wanted + ALIGNMENT) >> PAGE_BITS) + 1, pages = (u64)__builtin_wasm_memory_size(0) >> 3;
    if (pages < 16) pages = 16;
    if (pages < least) pages = least;
    if (!has_grown(pages) && !has_grown(least)) return 0;
    end = end_of_memory();
  }
  u8 *at = top + HEAD;
  top += wanted;
  return at;
}

static u8 *take(u64 bytes) {
  if (bytes > MOST) return 0;
  u64 class = class_of(bytes);
  u8 *at = (u8 *)lists[class];
  if (at) {
    lists[class] = lists[class]->next;
  } else {
    at = cut(room_of(class));
    if (!at) return 0;
    ((u64 *)at)[-1] = class;
  }
  in_use += room_of(class) + HEAD;
  return at;
}

static void give(u8 *at) {
  if (!at) return;
  u64 class = ((u64 *)at)[-1];
  in_use -= room_of(class) + HEAD;
  ((struct waiting *)at)->next = lists[class];
  lists[class] = (struct waiting *)at;
}

// Small ones by loops; of the large ones the compiler makes memory.copy and memory.fill.
void *memcpy(void *to, const void *from, u64 n) {
  if (n >= 64) return __builtin_memcpy(to, from, n);
  u8 *a = to;
  const u8 *b = from;
  while (n--) *a++ = *b++;
  return to;
}
void *memmove(void *to, const void *from, u64 n) {
  if (n >= 64) return __builtin_memmove(to, from, n);
  u8 *a = to;
  const u8 *b = from;
  if (a <= b || a >= b + n) while (n--) *a++ = *b++;
  else while (n--) a[n] = b[n];
  return to;
}
void *memset(void *to, int byte, u64 n) {
  if (n >= 64) return __builtin_memset(to, byte, n);
  u8 *a = to;
  while (n--) *a++ = (u8)byte;
  return to;
}
int memcmp(const void *left, const void *right, u64 n) {
  const u8 *a = left, *b = right;
  for (; n; n--, a++, b++) if (*a != *b) return *a - *b;
  return 0;
}

// What the compiled library asks of a heap. Its alignments are 16 at most.
struct answer rattle_alloc(u64 bytes, u64 alignment) {
  u8 *at = alignment > ALIGNMENT ? 0 : take(bytes);
  return (struct answer){at != 0, at};
}
void rattle_dealloc(u8 *at) { give(at); }
struct answer rattle_realloc(u8 *at, u64 kept, u64 bytes, u64 alignment) {
  u64 room = at ? room_of(((u64 *)at)[-1]) : 0;
  if (at && bytes <= room && 2 * bytes + 64 >= room) return (struct answer){1, at};
  u8 *to = alignment > ALIGNMENT ? 0 : take(bytes);
  if (!to) return (struct answer){0, at};
  if (at) {
    memcpy(to, at, kept < bytes ? kept : bytes);
    give(at);
  }
  return (struct answer){1, to};
}

// What JavaScript asks: room for handles and bytes, and how much is in use.
__attribute__((export_name("memory_take"))) u8 *memory_take(u64 bytes) { return take(bytes); }
__attribute__((export_name("memory_give"))) void memory_give(u8 *at) { give(at); }
__attribute__((export_name("memory_in_use"))) u64 memory_in_use(void) { return in_use; }

// Numbers of 128 bits, which LLVM leaves to a library that the kit doesn't have for WebAssembly.
static i128 joined(u64 high, u64 low) { return (i128)((u128)high << 64 | low); }
i128 __multi3(i128 x, i128 y) {
  u64 a = (u64)x, b = (u64)y, a_high = (u64)((u128)x >> 64), b_high = (u64)((u128)y >> 64);
  u64 a0 = (unsigned)a, a1 = a >> 32, b0 = (unsigned)b, b1 = b >> 32;
  u64 low = a0 * b0, middle = a0 * b1, other = a1 * b0;
  u64 carry = (low >> 32) + (unsigned)middle + (unsigned)other;
  u64 high = a1 * b1 + (middle >> 32) + (other >> 32) + (carry >> 32);
  return joined(high + a_high * b + a * b_high, carry << 32 | (unsigned)low);
}
i128 __ashlti3(i128 x, int n) {
  u64 low = (u64)x, high = (u64)((u128)x >> 64);
  if (n & 64) return joined(low << (n & 63), 0);
  return n ? joined(high << n | low >> (64 - n), low << n) : x;
}
i128 __lshrti3(i128 x, int n) {
  u64 low = (u64)x, high = (u64)((u128)x >> 64);
  if (n & 64) return joined(0, high >> (n & 63));
  return n ? joined(high >> n, low >> n | high << (64 - n)) : x;
}
i128 __ashrti3(i128 x, int n) {
  u64 low = (u64)x, high = (u64)((u128)x >> 64), sign = (u64)((long long)high >> 63);
  if (n & 64) return joined(sign, (u64)((long long)high >> (n & 63)));
  return n ? joined((u64)((long long)high >> n), low >> n | high << (64 - n)) : x;
}

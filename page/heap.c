// The heap that the program asks for memory in a page. Blocks have sizes 2^k and 3 * 2^(k-1), each with the number of its size before it; a
// freed block goes to the list of its size, and is handed out again from there. Memory grows as it is needed and never shrinks.
typedef unsigned long long word;
typedef unsigned char *place;
enum { HEAD = 16, SIZES = 96 };

extern unsigned char __heap_base;
static place next, end, freed[SIZES];

// An answer: whether there is a block, and where it is, in eight bytes each.
struct tried { word ok, at; };

static word size_of(word kind) { return (kind & 1 ? 3ull : 2ull) << (kind >> 1); }

static word *kind_at(place block) { return (word *)(block - HEAD); }

static place take(word bytes) {
  if (bytes > 1ull << 31) return 0;
  word kind = 8, size;
  while (size_of(kind) < bytes + HEAD) kind++;
  place block = freed[kind];
  if (block) {
    freed[kind] = *(place *)block;
    return block;
  }
  if (!next) {
    next = (place)(((unsigned long)&__heap_base + 15) & ~15ul);
    end = (place)(__builtin_wasm_memory_size(0) << 16);
  }
  size = size_of(kind);
  if ((word)(end - next) < size) {
    unsigned long pages = (size - (end - next) + 0xffff) >> 16;
    if (__builtin_wasm_memory_grow(0, pages) == ~0ul) return 0;
    end += pages << 16;
  }
  block = next + HEAD;
  next += size;
  *kind_at(block) = kind;
  return block;
}

static void give(place block) {
  word kind = *kind_at(block);
  *(place *)block = freed[kind];
  freed[kind] = block;
}

static void answer(struct tried *to, place block) { to->ok = block != 0, to->at = (unsigned long)block; }

void rattle_alloc(struct tried *to, word bytes, word align) { answer(to, take(bytes)); }

void rattle_realloc(struct tried *to, place block, word kept, word bytes, word align) {
  if (bytes <= size_of(*kind_at(block)) - HEAD) {
    answer(to, block);
    return;
  }
  place other = take(bytes);
  if (other) {
    __builtin_memcpy(other, block, kept);
    give(block);
  }
  answer(to, other);
}

void rattle_dealloc(place block) { give(block); }

// Room for what the page hands in, and for what it gets back.
place svec_room(word bytes) { return take(bytes); }
void svec_done(place block) { give(block); }

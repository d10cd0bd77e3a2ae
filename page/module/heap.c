/* Memory for the program in a page: blocks over the memory of the WebAssembly module. There is one thread.
 *
 * Sizes are rounded up to classes, four to each doubling. A word before a block holds its class. A block that is given back goes to
 * the list of its class, and is used again only for that class. Past LIMIT bytes of the whole memory a request is refused. */
typedef unsigned long size;
typedef struct { size granted; void *block; } answer;

#define LIMIT ((size)1 << 30)
#define PAGE ((size)1 << 16)
#define HEAD ((size)16)
#define CLASSES 128

extern unsigned char __heap_base;
static size end_of_used;
static void *given_back[CLASSES];

static size bytes_of_class(size class) {
  size doubling = class / 4, quarters = class % 4;
  return ((4 + quarters) << doubling) * 8;
}

static size class_of(size bytes) {
  size units = (bytes + 7) / 8, class = 0;
  if (units > 4) {
    size doubling = 61 - (size)__builtin_clzl(units - 1);
    class = 4 * doubling + ((units - 1) >> doubling) - 3;
  }
  return class;
}

static size *head_of(void *block) { return (size *)((unsigned char *)block - HEAD); }

/* Makes the module's memory reach up to this address. */
static int reach(size address) {
  size have = __builtin_wasm_memory_size(0) * PAGE;
  if (address <= have) return 1;
  size pages = (address - have + PAGE - 1) / PAGE, more = have / PAGE / 2;
  if (pages < more && have + more * PAGE <= LIMIT && __builtin_wasm_memory_grow(0, more) != (size)-1) return 1;
  return __builtin_wasm_memory_grow(0, pages) != (size)-1;
}

static void *fresh(size class) {
  if (!end_of_used) end_of_used = ((size)&__heap_base + 15) / 16 * 16;
  size start = end_of_used, next = start + HEAD + (bytes_of_class(class) + 15) / 16 * 16;
  if (next > LIMIT || !reach(next)) return 0;
  end_of_used = next;
  *(size *)start = class;
  return (unsigned char *)start + HEAD;
}

static void *take(size bytes) {
  if (bytes > LIMIT) return 0;
  size class = class_of(bytes);
  void *block = given_back[class];
  if (!block) return fresh(class);
  given_back[class] = *(void **)block;
  return block;
}

answer rattle_alloc(size bytes, size alignment) {
  (void)alignment;
  void *block = take(bytes);
  return (answer){block != 0, block};
}

void rattle_dealloc(void *block) {
  size class = *head_of(block);
  *(void **)block = given_back[class];
  given_back[class] = block;
}

answer rattle_realloc(void *block, size kept, size bytes, size alignment) {
  (void)alignment;
  if (bytes <= LIMIT && class_of(bytes) == *head_of(block)) return (answer){1, block};
  void *moved = take(bytes);
  if (!moved) return (answer){0, block};
  __builtin_memcpy(moved, block, kept < bytes ? kept : bytes);
  rattle_dealloc(block);
  return (answer){1, moved};
}

void *malloc(size bytes) { return take(bytes); }
void free(void *block) {
  if (block) rattle_dealloc(block);
}

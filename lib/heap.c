/* Memory for the proved code, of the C library. Rattle's allocator calls these three, by the contracts of the toolchain's libc/src/heap.rt, which
 * nothing proves; tests/host.py tries each. Several threads may call them, as they may call malloc. */
#include <stdbool.h>
#include <stddef.h>
#include <stdlib.h>

/* Whether there was memory, and where. Without memory the pointer isn't NULL either, and owns nothing. */
typedef struct {
  bool is_there;
  void *block;
} tried;

tried rattle_alloc(size_t size, size_t align);
tried rattle_realloc(void *block, size_t kept, size_t size, size_t align);
void rattle_dealloc(void *block);

static tried answer(void *block) {
  static char nothing;
  return block != NULL ? (tried){true, block} : (tried){false, &nothing};
}

/* Memory for a value of this size, which may be 0, and of this alignment, which divides 16: malloc's blocks have at least that one. */
tried rattle_alloc(size_t size, size_t align) {
  return answer(malloc(size != 0 ? size : align));
}

/* Makes a block one of this size, and its first `kept` bytes stay. It may move; without memory it is left as it was. */
tried rattle_realloc(void *block, size_t kept, size_t size, size_t align) {
  (void)kept;
  return answer(realloc(block, size != 0 ? size : align));
}

void rattle_dealloc(void *block) {
  free(block);
}

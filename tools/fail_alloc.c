/* Lets requests for memory fail. It is preloaded into a program by tools/fail_alloc.py and bench/storm, and is no part of any crate.
 *
 * FAIL_ALLOC_AT=N      the N-th request gets no memory
 * FAIL_ALLOC_EVERY=N   each N-th request gets none
 * FAIL_ALLOC_COUNT=F   the number of requests, and that of those that got none, are kept in the file F, eight bytes each as the machine has
 *                      them, whatever the program's end
 * FAIL_ALLOC_SWITCH=F  none is refused while the first byte of the file F is 0, which may change at any time
 *
 * Requests are counted from when the program's own code begins. Memory that is given back, or made smaller, is never refused.
 */
#include <errno.h>
#include <fcntl.h>
#include <malloc.h>
#include <stdatomic.h>
#include <stddef.h>
#include <stdlib.h>
#include <sys/mman.h>
#include <unistd.h>

/* The C library's own functions, under the names that it keeps for those who put others in front. */
extern void *__libc_malloc(size_t);
extern void *__libc_calloc(size_t, size_t);
extern void *__libc_realloc(void *, size_t);
extern void *__libc_memalign(size_t, size_t);

struct counts {
  atomic_ulong requests, refused;
};

static struct counts counted_here;
static struct counts *counts = &counted_here;
static atomic_uchar always_on = 1;
static atomic_uchar *is_on = &always_on;
static unsigned long fails_at, fails_every;

static unsigned long setting(const char *name) {
  const char *text = getenv(name);
  return text ? strtoul(text, NULL, 10) : 0;
}

/* The first bytes of the file that this variable names, which others see as well; or NULL where there is no such file. */
static void *shared(const char *name, size_t size) {
  const char *path = getenv(name);
  int file = path ? open(path, O_RDWR | O_CREAT, 0600) : -1;
  void *place = MAP_FAILED;
  if (file >= 0 && ftruncate(file, size) == 0) place = mmap(NULL, size, PROT_READ | PROT_WRITE, MAP_SHARED, file, 0);
  if (file >= 0) close(file);
  return place == MAP_FAILED ? NULL : place;
}

__attribute__((constructor)) static void begin(void) {
  struct counts *kept = shared("FAIL_ALLOC_COUNT", sizeof *kept);
  atomic_uchar *switched = shared("FAIL_ALLOC_SWITCH", sizeof *switched);
  if (kept) counts = kept;
  if (switched) is_on = switched;
  atomic_store(&counts->requests, 0);
  atomic_store(&counts->refused, 0);
  fails_at = setting("FAIL_ALLOC_AT");
  fails_every = setting("FAIL_ALLOC_EVERY");
}

static int is_refused(void) {
  unsigned long number = atomic_fetch_add(&counts->requests, 1) + 1;
  if (number != fails_at && !(fails_every && number % fails_every == 0)) return 0;
  if (!atomic_load(is_on)) return 0;
  atomic_fetch_add(&counts->refused, 1);
  return 1;
}

static void *none(void) {
  errno = ENOMEM;
  return NULL;
}

void *malloc(size_t size) { return is_refused() ? none() : __libc_malloc(size); }

void *calloc(size_t count, size_t size) { return is_refused() ? none() : __libc_calloc(count, size); }

void *realloc(void *place, size_t size) {
  int grows = !place || size > malloc_usable_size(place);
  return grows && is_refused() ? none() : __libc_realloc(place, size);
}

void *memalign(size_t unit, size_t size) { return is_refused() ? none() : __libc_memalign(unit, size); }

void *aligned_alloc(size_t unit, size_t size) { return memalign(unit, size); }

int posix_memalign(void **place, size_t unit, size_t size) {
  void *given = memalign(unit, size);
  if (!given) return ENOMEM;
  *place = given;
  return 0;
}

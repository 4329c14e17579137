// Preloaded into a program, refuses one allocation: that with the number in REFUSED_ALLOCATION, counted from the start of
// `main`, over malloc, calloc, realloc, aligned_alloc and posix_memalign. An octet is written to descriptor 3 then.
//
// A program may choose itself, where that variable is not set, by single octets that it writes to standard error and that
// go no further: from 1 on the first allocation is refused, from 2 on the one after that which was chosen last, and from
// 3 on every allocation. 4 ends this: that write fails with EIO where an allocation was refused.
//
// The kit's clang brings no headers, so what is used of the C library is declared here.
typedef unsigned long size_t;
#define NULL ((void *)0)
#define EIO 5
#define ENOMEM 12
#define RTLD_NEXT ((void *)-1L)
void *dlsym(void *, const char *);
char *getenv(const char *);
unsigned long strtoul(const char *, char **, int);
long __write(int, const void *, size_t);
void _exit(int);
int *__errno_location(void);
void *__libc_malloc(size_t);
void *__libc_calloc(size_t, size_t);
void *__libc_realloc(void *, size_t);
void *__libc_memalign(size_t, size_t);

static int counting;
static unsigned long left;
static const char *number;
static unsigned long chosen;
static int every;
static int refused;
static int (*program)(int, char **, char **);

static int is_refused(void) {
  if (!counting || (!every && (left == 0 || --left != 0))) return 0;
  if (number && __write(3, "r", 1) != 1) _exit(125);
  refused = 1;
  *__errno_location() = ENOMEM;
  return 1;
}

static long choice(unsigned char octet) {
  if (octet == 4) {
    left = every = 0;
    if (!refused) return 1;
    *__errno_location() = EIO;
    return -1;
  }
  refused = 0;
  every = octet == 3;
  chosen = octet == 2 ? chosen + 1 : 1;
  left = every ? 0 : chosen;
  return 1;
}

long write(int file, const void *octets, size_t size) {
  if (file == 2 && size == 1 && !number) {
    unsigned char octet = *(const unsigned char *)octets;
    if (octet >= 1 && octet <= 4) return choice(octet);
  }
  return __write(file, octets, size);
}

void *malloc(size_t size) { return is_refused() ? NULL : __libc_malloc(size); }

void *calloc(size_t count, size_t size) { return is_refused() ? NULL : __libc_calloc(count, size); }

void *realloc(void *old, size_t size) { return is_refused() ? NULL : __libc_realloc(old, size); }

void *aligned_alloc(size_t align, size_t size) { return is_refused() ? NULL : __libc_memalign(align, size); }

int posix_memalign(void **out, size_t align, size_t size) {
  if (is_refused()) return ENOMEM;
  *out = __libc_memalign(align, size);
  return *out ? 0 : ENOMEM;
}

static int counted(int count, char **words, char **environment) {
  counting = 1;
  int status = program(count, words, environment);
  counting = 0;
  return status;
}

int __libc_start_main(int (*entry)(int, char **, char **), int count, char **words, void (*init)(void),
                      void (*fini)(void), void (*loader_fini)(void), void *stack_end) {
  number = getenv("REFUSED_ALLOCATION");
  left = number ? strtoul(number, NULL, 10) : 0;
  program = entry;
  int (*real)(int (*)(int, char **, char **), int, char **, void (*)(void), void (*)(void), void (*)(void), void *) =
      dlsym(RTLD_NEXT, "__libc_start_main");
  return real(counted, count, words, init, fini, loader_fini, stack_end);
}

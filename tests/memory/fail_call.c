// Preloaded into a program, fails one read of standard input, that with the number in FAILED_READ, or one write to
// standard output, that with the number in FAILED_WRITE, counted from 1: they are interrupted, or, with BROKEN set, fail,
// or, with NO_OCTET set, a write takes no octet. Each read and write then goes over three octets at most.
//
// The kit's clang brings no headers, so what is used of the C library is declared here.
typedef unsigned long size_t;
#define NULL ((void *)0)
#define EINTR 4
#define EIO 5
#define RTLD_NEXT ((void *)-1L)
#define FEW 3
void *dlsym(void *, const char *);
char *getenv(const char *);
unsigned long strtoul(const char *, char **, int);
int *__errno_location(void);

static unsigned long reads;
static unsigned long writes;

static int is_failed(const char *name, unsigned long *count) {
  const char *number = getenv(name);
  *count += 1;
  if (!number || strtoul(number, NULL, 10) != *count) return 0;
  *__errno_location() = getenv("BROKEN") ? EIO : EINTR;
  return 1;
}

long read(int file, void *octets, size_t size) {
  long (*real)(int, void *, size_t) = (long (*)(int, void *, size_t))dlsym(RTLD_NEXT, "read");
  if (file != 0) return real(file, octets, size);
  if (is_failed("FAILED_READ", &reads)) return -1;
  return real(file, octets, size < FEW ? size : FEW);
}

long write(int file, const void *octets, size_t size) {
  long (*real)(int, const void *, size_t) = (long (*)(int, const void *, size_t))dlsym(RTLD_NEXT, "write");
  if (file != 1) return real(file, octets, size);
  if (is_failed("FAILED_WRITE", &writes)) return getenv("NO_OCTET") ? 0 : -1;
  return real(file, octets, size < FEW ? size : FEW);
}

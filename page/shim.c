/* What the program calls of C, for a memory of 64 bits in a browser: memory, words and files, the end, numbers of 128
   bits, and threads, of which none can be made. No proof covers this file. Five functions come from the host, which
   host.js has, and a sixth tells it how large the memory is. */
typedef unsigned long usize;
typedef long isize;
typedef unsigned char byte;
typedef unsigned __int128 wide;

#define HOST(name) __attribute__((import_module("host"), import_name(#name)))
HOST(open) int host_open(const char *path, int flags);
HOST(read) isize host_read(int file, void *buffer, usize size);
HOST(write) isize host_write(int file, const void *buffer, usize size);
HOST(arg) isize host_arg(usize number, void *buffer, usize size);
HOST(exit) _Noreturn void host_exit(int status);
HOST(grown) void host_grown(usize size);

enum { PAGE = 65536, MORE = 16, HEAD = 16, NOT_FOUND = 2, NOT_NOW = 11 };

/* Bytes. The compiler has an instruction for each of the first three. */

void *memcpy(void *to, const void *from, usize size) { return __builtin_memcpy(to, from, size); }
void *memmove(void *to, const void *from, usize size) { return __builtin_memmove(to, from, size); }
void *memset(void *to, int value, usize size) { return __builtin_memset(to, value, size); }

int memcmp(const void *left, const void *right, usize size) {
    const byte *a = left, *b = right;
    for (usize at = 0; at < size; at++)
        if (a[at] != b[at]) return a[at] - b[at];
    return 0;
}

int bcmp(const void *left, const void *right, usize size) { return memcmp(left, right, size); }

usize strlen(const char *text) {
    usize size = 0;
    while (text[size]) size++;
    return size;
}

/* Memory: blocks of 2^k bytes, of which those that are free again stand in a list for each k. The first word of a block
   is its k; the next block of the list stands behind its head. */

extern byte __heap_base;
static byte *top;
static byte *lists[64];

static int class_of(usize size) {
    int k = 5;
    while (((usize)1 << k) < size) k++;
    return k;
}

static byte *new_block(usize size) {
    if (!top) top = (byte *)(((usize)&__heap_base + 15) & ~(usize)15);
    usize has = __builtin_wasm_memory_size(0) * PAGE, end = (usize)top + size;
    if (end > has) {
        usize pages = (end - has + PAGE - 1) / PAGE;
        if (__builtin_wasm_memory_grow(0, pages + MORE) == (usize)-1 &&
            __builtin_wasm_memory_grow(0, pages) == (usize)-1) return 0;
        host_grown(__builtin_wasm_memory_size(0) * PAGE);
    }
    byte *block = top;
    top += size;
    return block;
}

void *malloc(usize size) {
    if (size > (usize)1 << 48) return 0;
    int k = class_of(size + HEAD);
    byte *block = lists[k];
    if (block) lists[k] = *(byte **)(block + HEAD);
    else block = new_block((usize)1 << k);
    if (!block) return 0;
    *(usize *)block = k;
    return block + HEAD;
}

void free(void *given) {
    if (!given) return;
    byte *block = (byte *)given - HEAD;
    usize k = *(usize *)block;
    *(byte **)(block + HEAD) = lists[k];
    lists[k] = block;
}

typedef struct { long ok; long at; } Tried;

static Tried tried(void *block) { return (Tried){block != 0, (long)block}; }

Tried rattle_alloc(usize size, usize align) { return tried(malloc(size)); }
void rattle_dealloc(void *block) { free(block); }

Tried rattle_realloc(void *block, usize kept, usize size, usize align) {
    usize k = *(usize *)((byte *)block - HEAD);
    if (size + HEAD <= (usize)1 << k) return tried(block);
    void *other = malloc(size);
    if (!other) return tried(0);
    memcpy(other, block, kept);
    free(block);
    return tried(other);
}

/* Words, files and the end. There is no environment. */

static int error;

int rattle_errno(void) { return error; }
void rattle_set_errno(int number) { error = number; }
isize rattle_arg(usize number, void *buffer, usize size) { return host_arg(number, buffer, size); }
isize rattle_env_at(usize number, void *buffer, usize size) { return -1; }
isize rattle_env(const void *name, void *buffer, usize size) { return -1; }

int open(const char *path, int flags, ...) {
    int file = host_open(path, flags);
    if (file < 0) error = NOT_FOUND;
    return file;
}

isize read(int file, void *buffer, usize size) { return host_read(file, buffer, size); }
isize write(int file, const void *buffer, usize size) { return host_write(file, buffer, size); }
isize __write(int file, const void *buffer, usize size) { return host_write(file, buffer, size); }
int close(int file) { return 0; }
_Noreturn void _exit(int status) { host_exit(status); }
_Noreturn void abort(void) { __builtin_trap(); }

/* Threads: to make one fails, so that more than one worker ends with the status 7. There are no signals, and of the
   calls of a system none is there. */

long __sysv_signal(int number, long handler) { return 0; }
int pthread_create(void *thread, void *how, void *start, void *given) { return NOT_NOW; }
int pthread_attr_init(void *how) { return 0; }
int pthread_attr_setguardsize(void *how, usize size) { return 0; }
int pthread_attr_setstacksize(void *how, usize size) { return 0; }
int pthread_attr_destroy(void *how) { return 0; }
long pthread_self(void) { return 1; }
int pthread_detach(long thread) { return 0; }
int pthread_join(long thread, void *result) { return 0; }
int sched_yield(void) { return 0; }
long syscall(long number, void *a, long b, long c, void *d, ...) { return -1; }

/* A program that is built for x86-64 asks first what its processor can do. Here each answer is yes, since clang makes
   the code anew for this machine. */

static const unsigned leaf[8] = {~0u, ~0u, ~0u, ~0u, ~0u, ~0u, ~0u, ~0u};
const void *__x86_get_cpuid_feature_leaf(unsigned number) { return leaf; }

/* Numbers of 128 bits, of two halves of 64. */

static wide of_halves(usize high, usize low) { return (wide)high << 64 | low; }

wide __multi3(wide a, wide b) {
    usize low_mask = 0xffffffff, al = a, ah = a >> 64, bl = b, bh = b >> 64;
    usize a0 = al & low_mask, a1 = al >> 32, b0 = bl & low_mask, b1 = bl >> 32;
    usize first = a0 * b0, one = a0 * b1, other = a1 * b0, last = a1 * b1;
    usize middle = (first >> 32) + (one & low_mask) + (other & low_mask);
    usize high = last + (one >> 32) + (other >> 32) + (middle >> 32) + ah * bl + al * bh;
    return of_halves(high, (first & low_mask) | middle << 32);
}

wide __ashlti3(wide a, int by) {
    usize low = a, high = a >> 64;
    if (by == 0) return a;
    return by >= 64 ? of_halves(low << (by - 64), 0) : of_halves(high << by | low >> (64 - by), low << by);
}

wide __lshrti3(wide a, int by) {
    usize low = a, high = a >> 64;
    if (by == 0) return a;
    return by >= 64 ? of_halves(0, high >> (by - 64)) : of_halves(high >> by, low >> by | high << (64 - by));
}

__int128 __ashrti3(__int128 a, int by) {
    usize low = a;
    isize high = a >> 64;
    if (by == 0) return a;
    if (by >= 64) return of_halves(high >> 63, high >> (by - 64));
    return of_halves(high >> by, low >> by | (usize)high << (64 - by));
}

static wide divided(wide a, wide b, wide *rest) {
    wide found = 0, left = 0;
    for (int bit = 127; bit >= 0; bit--) {
        left = left << 1 | (a >> bit & 1);
        if (left >= b) {
            left -= b;
            found |= (wide)1 << bit;
        }
    }
    *rest = left;
    return found;
}

static wide size_of(__int128 a) { return a < 0 ? -(wide)a : (wide)a; }

wide __udivti3(wide a, wide b) { wide rest; return divided(a, b, &rest); }
wide __umodti3(wide a, wide b) { wide rest; divided(a, b, &rest); return rest; }

__int128 __divti3(__int128 a, __int128 b) {
    wide rest, found = divided(size_of(a), size_of(b), &rest);
    return (a < 0) != (b < 0) ? -found : found;
}

__int128 __modti3(__int128 a, __int128 b) {
    wide rest;
    divided(size_of(a), size_of(b), &rest);
    return a < 0 ? -rest : rest;
}

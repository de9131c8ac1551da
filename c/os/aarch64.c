/* What the toolchain's crates os and libc declare in C and the program calls, for aarch64: the toolchain has it for
 * x86-64 alone. Each function does what the comment at its declaration there says. There are no headers to include, so
 * the C library's functions are declared here. */
typedef __SIZE_TYPE__ size;
typedef __PTRDIFF_TYPE__ offset;

struct tried {
    _Bool ok;
    void *p;
};

struct event { /* as the kernel lays it out on every processor but x86-64 */
    unsigned events;
    unsigned long data;
};

struct address { /* a sockaddr_in or a sockaddr_in6, in the first len bytes */
    unsigned char bytes[128];
    unsigned len;
};

struct info {
    int flags, family, kind, protocol;
    unsigned len;
    const unsigned char *bytes;
    char *name;
    struct info *next;
};

int *__errno_location(void);
int epoll_ctl(int epfd, int op, int fd, struct event *event);
int epoll_wait(int epfd, struct event *events, int most, int timeout);
void free(void *p);
void freeaddrinfo(struct info *all);
int getaddrinfo(const char *host, const char *service, const struct info *wanted, struct info **all);
int ioctl(int fd, unsigned long request, ...);
void *malloc(size n);
int openat(int dir, const char *name, int flags, ...);
void *realloc(void *p, size n);

enum { MOST_EVENTS = 1 << 24, SETS_NONBLOCKING = 0x5421, OPENS_DIR = 0x80000 | 0x4000 | 0x8000 };
enum { IPV4 = 2, IPV6 = 10, STREAM = 1 };

static size count;
static char **words;
static char nothing[16] __attribute__((aligned(16)));

/* The C library calls it before `main`. */
__attribute__((constructor)) static void keep_words(int argc, char **argv) {
    count = (size)argc;
    words = argv;
}

size rattle_arg_count(void) {
    return count;
}

offset rattle_arg(size i, unsigned char *out, size room) {
    size n;
    if (i >= count || !words[i])
        return -1;
    for (n = 0; words[i][n]; n++) {
        if (n == room)
            return -2;
        out[n] = (unsigned char)words[i][n];
    }
    return (offset)n;
}

int rattle_errno(void) {
    return *__errno_location();
}

void rattle_set_errno(int error) {
    *__errno_location() = error;
}

struct tried rattle_alloc(size n, size align) {
    void *p = malloc(n ? n : align);
    return (struct tried){p != 0, p ? p : nothing};
}

struct tried rattle_realloc(void *old, size kept, size n, size align) {
    (void)kept;
    void *p = realloc(old, n ? n : align);
    return (struct tried){p != 0, p ? p : nothing};
}

void rattle_dealloc(void *p) {
    free(p);
}

int rattle_open_dir_at(int dir, const char *name) {
    return openat(dir, name, OPENS_DIR);
}

int rattle_set_nonblocking(int fd, _Bool on) {
    int value = on;
    return ioctl(fd, SETS_NONBLOCKING, &value);
}

int rattle_epoll_ctl(int epfd, int op, int fd, unsigned events, unsigned long data) {
    struct event event = {events, data};
    return epoll_ctl(epfd, op, fd, &event);
}

offset rattle_epoll_wait(int epfd, struct event *events, size room, int timeout) {
    return epoll_wait(epfd, events, room < MOST_EVENTS ? (int)room : MOST_EVENTS, timeout);
}

offset rattle_lookup_host(const char *name, struct address *found, size room) {
    struct info wanted = {.kind = STREAM}, *all, *one;
    size n = 0;
    unsigned i;
    int error = getaddrinfo(name, 0, &wanted, &all);
    if (error)
        return error;
    for (one = all; one && n < room; one = one->next) {
        if ((one->family != IPV4 && one->family != IPV6) || one->len > sizeof found[n].bytes)
            continue;
        for (i = 0; i < one->len; i++)
            found[n].bytes[i] = one->bytes[i];
        found[n++].len = one->len;
    }
    freeaddrinfo(all);
    return (offset)n;
}

/* Division of 128 bits, which the compiler calls, bit by bit. */
unsigned __int128 __udivti3(unsigned __int128 a, unsigned __int128 b) {
    unsigned __int128 quotient = 0, rest = 0;
    int i;
    for (i = 127; i >= 0; i--) {
        _Bool carries = rest >> 127;
        rest = rest << 1 | (a >> i & 1);
        if (carries || rest >= b) {
            rest -= b;
            quotient |= (unsigned __int128)1 << i;
        }
    }
    return quotient;
}

/* Where the program begins, as in the C library's own start. */
__asm__(".globl _start\n"
        ".type _start, %function\n"
        "_start: mov x29, #0\n"
        "mov x30, #0\n"
        "mov x5, x0\n"
        "ldr x1, [sp]\n"
        "add x2, sp, #8\n"
        "mov x6, sp\n"
        "adrp x0, :got:main\n"
        "ldr x0, [x0, #:got_lo12:main]\n"
        "mov x3, #0\n"
        "mov x4, #0\n"
        "bl __libc_start_main\n"
        "brk #0\n");

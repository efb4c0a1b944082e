// Refuses one growth of a program, and tells where none was to come: a library that is loaded before the C library. Every call
// for memory is counted, and the one whose number stands in REFUSED_GROWTH gets none. That is told on standard error, in the
// line that .ci/refused-growth looks for. Two calls for blocks of certain sizes say from where to where no other call may come:
// where one of these calls is, and the first that comes between them, is told too. In the end it tells how many blocks were not
// freed. It includes no header, since none declares the functions behind those of the C library, to which it hands on.

typedef unsigned long size_t;

// ENOMEM, which whoever starts a thread looks for.
enum { OUT_OF_MEMORY = 12 };

// The blocks that a test asks for where no more growth is to come, and where some may come again. Nothing else asks for such.
enum { BEGINS = 1000003, ENDS = 1000033 };

// Whether growth may come, may not, or may not and did.
enum { MAY, MAY_NOT, DID };

extern void *__libc_malloc(size_t size);
extern void *__libc_calloc(size_t count, size_t size);
extern void *__libc_realloc(void *block, size_t size);
extern void __libc_free(void *block);
extern int *__errno_location(void);
extern char *getenv(const char *name);
extern long write(int file, const void *bytes, size_t count);

static unsigned long growths;
static long blocks;
static int span;

static void tell(const char *line) {
    size_t length = 0;
    while (line[length])
        length++;
    write(2, line, length);
}

static unsigned long chosen(void) {
    const char *word = getenv("REFUSED_GROWTH");
    unsigned long number = 0;
    for (; word && *word >= '0' && *word <= '9'; word++)
        number = number * 10 + (unsigned long)(*word - '0');
    return number;
}

static int is_refused(void) {
    if (__atomic_add_fetch(&growths, 1, __ATOMIC_SEQ_CST) != chosen())
        return 0;
    tell("a growth was refused\n");
    *__errno_location() = OUT_OF_MEMORY;
    return 1;
}

// Notes a call for a block of this size. Of a span only the first call for another block is told.
static void note(size_t size) {
    if (size == BEGINS) {
        __atomic_store_n(&span, MAY_NOT, __ATOMIC_SEQ_CST);
        tell("no growth from here on\n");
    } else if (size == ENDS) {
        __atomic_store_n(&span, MAY, __ATOMIC_SEQ_CST);
        tell("growth may come again\n");
    } else {
        int may_not = MAY_NOT;
        if (__atomic_compare_exchange_n(&span, &may_not, DID, 0, __ATOMIC_SEQ_CST, __ATOMIC_SEQ_CST))
            tell("a growth came all the same\n");
    }
}

// Counts a block that was taken, if one was.
static void *taken(void *block) {
    if (block)
        __atomic_add_fetch(&blocks, 1, __ATOMIC_SEQ_CST);
    return block;
}

void *malloc(size_t size) {
    note(size);
    return is_refused() ? 0 : taken(__libc_malloc(size));
}

void *calloc(size_t count, size_t size) {
    note(0);
    return is_refused() ? 0 : taken(__libc_calloc(count, size));
}

// A block that is made larger or smaller stays one block. Nobody asks for one of no bytes.
void *realloc(void *block, size_t size) {
    note(0);
    if (is_refused())
        return 0;
    return block ? __libc_realloc(block, size) : taken(__libc_malloc(size));
}

void free(void *block) {
    if (block)
        __atomic_sub_fetch(&blocks, 1, __ATOMIC_SEQ_CST);
    __libc_free(block);
}

__attribute__((destructor)) static void tell_blocks(void) {
    char line[] = "blocks left: 0000000\n";
    long left = blocks;
    for (char *digit = line + sizeof line - 3; left > 0 && *digit != ' '; digit--, left /= 10)
        *digit = (char)('0' + left % 10);
    tell(line);
}

/* How much stack each call of the core uses: each runs on a stack of its own that was painted before, on the fullest table
   there is, and what is no longer painted was used. `bash tools/stack` builds and runs it, for x86-64. No header is named, so
   that the toolchain's own compiler builds it by itself. */

typedef unsigned char byte;
typedef unsigned int word;
typedef unsigned long size;

int printf(const char *, ...);
void exit(int);

/* The core's calls (crates/bench_c): a slice is two parameters, its start and its length. */
size bench_read(const byte *file, size file_len, word cabinet, unsigned short line, word *out, size out_len);
size bench_write(const byte *table, size table_len, const word *own, size own_len, byte *out, size out_len);
size bench_times(const byte *table, size table_len);
long bench_tolerances(const byte *table, size table_len);
size bench_lengths(const byte *table, size table_len);
size bench_fit(const byte *table, size table_len, const word *own, size own_len);
size bench_points(const byte *table, size table_len, const word *own, size own_len);
size bench_first(const byte *table, size table_len, byte *out, size out_len);
size bench_next(const byte *table, size table_len, const byte *given, size given_len, byte *out, size out_len);
size bench_record(const byte *file, size file_len, word cabinet, unsigned short line, size record);
size bench_regions(const byte *table, size table_len, const word *own, size own_len, size record);
size bench_last(const byte *table, size table_len, const word *own, size own_len, size record);
size bench_name(word name, const byte *list, size list_len);

/* The plate of bench_write. */
enum { CABINET = 70001, LINE = 12 };
enum { TASKS = 15, REGIONS = 6, WORDS = 100, FIELDS = 10, TABLE = 1 + TASKS * FIELDS * 4, FILE_ROOM = 1024, PAINT = 0xA5 };

static byte stack[1 << 20] __attribute__((aligned(64)));
static byte table[TABLE], file[FILE_ROOM], row[2 * TASKS], next[2 * TASKS], names[1024];
static word own[WORDS], words[WORDS];
static size file_len, answer;

static void put_word(byte *at, word x) {
    for (int k = 0; k < 4; k++) at[k] = x >> (24 - 8 * k);
}

/* Every task has six regions of one tick, and every threshold is 1, so that all tasks above block. */
static void make_inputs(void) {
    table[0] = TASKS;
    for (word k = 0; k < TASKS; k++) {
        word fields[FIELDS] = {REGIONS, 1000 + k, 1000, k + 1, 1, 0, REGIONS * k, REGIONS, k, 0};
        for (int f = 0; f < FIELDS; f++) put_word(table + 1 + 4 * (k * FIELDS + f), fields[f]);
    }
    for (int k = 0; k < WORDS; k++) own[k] = 1;
    for (int k = 0; k < (int)sizeof names; k++) names[k] = 'a';
    for (int k = 0; k < TASKS; k++) row[k] = k + 1, row[TASKS + k] = 1;
}

/* A call that is turned away would use less: it must be answered. */
static void want(int right) {
    if (!right) {
        printf("stack: a call was turned away\n");
        exit(1);
    }
}

static void write_it(void) { answer = bench_write(table, TABLE, own, WORDS, file, FILE_ROOM); }
static void read_it(void) { answer = bench_read(file, file_len, CABINET, LINE, words, WORDS); }
static void times(void) { answer = bench_times(table, TABLE); }
static void tolerances(void) { answer = bench_tolerances(table, TABLE); }
static void lengths(void) { answer = bench_lengths(table, TABLE); }
static void fit(void) { answer = bench_fit(table, TABLE, own, WORDS); }
static void points(void) { answer = bench_points(table, TABLE, own, WORDS); }
static void first(void) { answer = bench_first(table, TABLE, row, 2 * TASKS); }
static void next_row(void) { answer = bench_next(table, TABLE, row, 2 * TASKS, next, 2 * TASKS); }
static void record(void) { answer = bench_record(file, file_len, CABINET, LINE, TASKS); }
static void regions(void) { answer = bench_regions(table, TABLE, own, WORDS, TASKS); }
static void last(void) { answer = bench_last(table, TABLE, own, WORDS, TASKS); }
static void name(void) { answer = bench_name(63, names, sizeof names); }

/* Runs the work on the painted stack and says how many bytes of it are no longer as they were painted. It is run once before:
   what the loader does at a first call, by its own means on each machine, is no part of it. */
static size used(void (*work)(void)) {
    work();
    for (size k = 0; k < sizeof stack; k++) stack[k] = PAINT;
    byte *top = stack + sizeof stack;
    __asm__ volatile("movq %%rsp, %%rbx\n\tmovq %0, %%rsp\n\tcall *%1\n\tmovq %%rbx, %%rsp"
                     : "+a"(top), "+c"(work)
                     :
                     : "rbx", "rdx", "rsi", "rdi", "r8", "r9", "r10", "r11", "xmm0", "xmm1", "xmm2", "xmm3", "xmm4", "xmm5", "xmm6", "xmm7",
                       "xmm8", "xmm9", "xmm10", "xmm11", "xmm12", "xmm13", "xmm14", "xmm15", "memory", "cc");
    size k = 0;
    while (k < sizeof stack && stack[k] == PAINT) k++;
    want(k > 0 && k < sizeof stack);
    return sizeof stack - k;
}

int main(void) {
    make_inputs();
    printf("| call | bytes of stack |\n|---|---|\n");
    size writing = used(write_it);
    want(answer == 0);
    file_len = 8 + 12 * TASKS + (20 * WORDS + 7) / 8 + 2;
    printf("| `read` | %lu |\n", used(read_it));
    want(answer == 0);
    printf("| `write` | %lu |\n", writing);
    printf("| `response_times` | %lu |\n", used(times));
    want(answer != 0);
    printf("| `tolerances` | %lu |\n", used(tolerances));
    want(answer != 0);
    printf("| `lengths` | %lu |\n", used(lengths));
    want(answer == 0);
    printf("| `region_check` | %lu |\n", used(fit));
    want(answer == 0);
    printf("| `point_check` | %lu |\n", used(points));
    want(answer == TASKS);
    printf("| `first_row` | %lu |\n", used(first));
    want(answer == 0);
    printf("| `next_row` | %lu |\n", used(next_row));
    want(answer == 0);
    printf("| `record` | %lu |\n", used(record));
    want(answer == 12);
    printf("| `regions` | %lu |\n", used(regions));
    want(answer == REGIONS);
    printf("| `last_region` | %lu |\n", used(last));
    want(answer == 1);
    printf("| `name` | %lu |\n", used(name));
    want(answer == 16);
    return 0;
}

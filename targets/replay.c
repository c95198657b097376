/*
 * Replays calls of the library through its header, and writes the lines that the program crates/test_calls writes.
 * No library beside it: system calls only, so that it runs on every target that an emulator has.
 *
 * Standard input is frames: a letter, two numbers of four bytes, the low byte first, and bytes for t and r.
 *   t 0 n ..   the text is these n bytes           r k n ..   k copies of these n bytes more
 *   c n v      check, with n numbers to work in, each v
 *   p n k      report, with n numbers to work in and k numbers of output, all 4,294,967,295
 *   q n k      the same, all 0
 *   m i k      message of fault i, to k bytes of output, all 255
 *   n i _      name of fault i
 *   v _ _      version
 *   s b _      b 1: from here on a line 'stack' comes after that of a call, with the bytes that it took; b 0: no more
 *
 * All numbers of an answer are written, and hold a pattern before the call. The same pattern stands behind the answer
 * and behind the buffers: if it is changed, the line has the word 'wrong'. A buffer of no length is a null pointer.
 */
#include "../include/serduzhap.h"

#define INLINE static inline __attribute__((always_inline))
#define APART static __attribute__((noinline))

typedef __SIZE_TYPE__ size;

/* ---- the system: reads, writes, ends */

#if defined(__wasm__)

__attribute__((import_name("read"))) uint32_t read_all(void *to, uint32_t most);
__attribute__((import_name("write"))) void write_all(const void *from, uint32_t count);

#else

#if defined(__x86_64__)
enum { READ = 0, WRITE = 1, EXIT = 60 };
#elif defined(__arm__)
enum { READ = 3, WRITE = 4, EXIT = 1 };
#else
enum { READ = 63, WRITE = 64, EXIT = 93 };
#endif

static long ask(long number, long a, long b, long c) {
#if defined(__x86_64__)
    long answer;
    __asm__ volatile("syscall" : "=a"(answer) : "0"(number), "D"(a), "S"(b), "d"(c) : "rcx", "r11", "memory");
    return answer;
#elif defined(__aarch64__)
    register long x8 __asm__("x8") = number, x0 __asm__("x0") = a, x1 __asm__("x1") = b, x2 __asm__("x2") = c;
    __asm__ volatile("svc 0" : "+r"(x0) : "r"(x8), "r"(x1), "r"(x2) : "memory");
    return x0;
#elif defined(__arm__)
    register long r0 __asm__("r0") = a, r1 __asm__("r1") = b, r2 __asm__("r2") = c, r4 __asm__("r4") = number;
    __asm__ volatile("mov r5, r7\n mov r7, r4\n svc 0\n mov r7, r5"
                     : "+r"(r0) : "r"(r1), "r"(r2), "r"(r4) : "r5", "memory");
    return r0;
#elif defined(__riscv)
    register long a7 __asm__("a7") = number, a0 __asm__("a0") = a, a1 __asm__("a1") = b, a2 __asm__("a2") = c;
    __asm__ volatile("ecall" : "+r"(a0) : "r"(a7), "r"(a1), "r"(a2) : "memory");
    return a0;
#endif
}

static uint32_t read_all(void *to, uint32_t most) {
    uint32_t count = 0;
    while (count < most) {
        long more = ask(READ, 0, (long)((char *)to + count), (long)(most - count));
        if (more <= 0)
            break;
        count += (uint32_t)more;
    }
    return count;
}

static void write_all(const void *from, uint32_t count) {
    const char *next = from;
    while (count > 0) {
        long done = ask(WRITE, 1, (long)next, (long)count);
        if (done <= 0)
            ask(EXIT, 1, 0, 0);
        next += done;
        count -= (uint32_t)done;
    }
}

#endif

/* ---- what a maker links: a byte at a time, and not what a compiler takes for a call of itself */

void *memset(void *to, int value, size count) {
    volatile uint8_t *p = to;
    while (count--)
        *p++ = (uint8_t)value;
    return to;
}

void *memcpy(void *to, const void *from, size count) {
    volatile uint8_t *p = to;
    const uint8_t *q = from;
    while (count--)
        *p++ = *q++;
    return to;
}

void *memmove(void *to, const void *from, size count) {
    volatile uint8_t *p = to;
    const volatile uint8_t *q = from;
    if (p <= q)
        return memcpy(to, from, count);
    while (count--)
        p[count] = q[count];
    return to;
}

/* ---- buffers */

enum { FRAMES = 1 << 22, TEXT = 70000, NUMBERS = 16400, BYTES = 512, LINES = 1 << 16, BEHIND = 4 };
#define ONES 0xffffffffu
#define PATTERN 0xa5a5a5a5u

static uint8_t frames[FRAMES], text[TEXT], bytes[BYTES + BEHIND], lines[LINES];
static uint32_t work[NUMBERS + BEHIND], out[NUMBERS + BEHIND], answer[SERDUZHAP_CHECK_ANSWER + BEHIND];
static uint32_t frames_len, text_len, lines_len;

static uint32_t least(uint32_t a, uint32_t b) { return a < b ? a : b; }

static void fill(uint32_t *to, uint32_t count, uint32_t value) {
    for (uint32_t i = 0; i < count; i++)
        to[i] = value;
}

static uint32_t sum_of(const uint32_t *numbers, uint32_t count) {
    uint32_t sum = 0;
    for (uint32_t i = 0; i < count; i++)
        sum = sum * 31 + numbers[i];
    return sum;
}

static uint32_t sum_of_bytes(const uint8_t *from, uint32_t count) {
    uint32_t sum = 0;
    for (uint32_t i = 0; i < count; i++)
        sum = sum * 31 + from[i];
    return sum;
}

/* ---- lines */

static void flush(void) {
    write_all(lines, lines_len);
    lines_len = 0;
}

static void say_bytes(const uint8_t *from, uint32_t count) {
    for (uint32_t i = 0; i < count; i++) {
        if (lines_len == LINES)
            flush();
        lines[lines_len++] = from[i];
    }
}

static void say(const char *words) {
    uint32_t count = 0;
    while (words[count])
        count++;
    say_bytes((const uint8_t *)words, count);
}

static void put(uint32_t number, const char *after) {
    uint8_t digits[10];
    uint32_t at = sizeof digits;
    do
        digits[--at] = (uint8_t)('0' + number % 10);
    while ((number /= 10) > 0);
    say_bytes(digits + at, (uint32_t)sizeof digits - at);
    say(after);
}

static void look_behind(const void *end, uint32_t count, const char *what) {
    const uint8_t *behind = end;
    for (uint32_t i = 0; i < count; i++)
        if (behind[i] != (uint8_t)PATTERN) {
            say("wrong: written behind ");
            say(what);
            say("\t");
        }
}

/* Says all numbers of an answer of so many. Nothing behind it, and behind n numbers of work, k of output and m bytes,
   may have been written. */
static void say_answer(uint32_t count, uint32_t n, uint32_t k, uint32_t m) {
    for (uint32_t i = 0; i < count; i++)
        put(answer[i], "\t");
    look_behind(answer + count, BEHIND * 4, "the answer");
    look_behind(work + n, BEHIND * 4, "the work buffer");
    look_behind(out + k, BEHIND * 4, "the output");
    look_behind(bytes + m, BEHIND, "the message");
}

/* ---- the stack: what is below the stack pointer is filled before a call, and looked through after it */

enum { ROOM = 1 << 17, PAINT = 0xa5 };
static uint32_t painting, stack_used;

INLINE volatile uint8_t *stack_pointer(void) {
    volatile uint8_t *here;
#if defined(__x86_64__)
    __asm__ volatile("mov %%rsp, %0" : "=r"(here));
#elif defined(__riscv)
    __asm__ volatile("mv %0, sp" : "=r"(here));
#elif defined(__wasm__)
    __asm__ volatile("global.get __stack_pointer\n local.set %0" : "=r"(here));
#else
    __asm__ volatile("mov %0, sp" : "=r"(here));
#endif
    return here;
}

INLINE void paint(volatile uint8_t *here) {
    for (long i = 1; painting && i <= ROOM; i++)
        here[-i] = PAINT;
}

static void look_below(volatile uint8_t *here) {
    long untouched = 0;
    while (painting && untouched < ROOM && here[untouched - ROOM] == PAINT)
        untouched++;
    stack_used = (uint32_t)(ROOM - untouched);
}

static void say_stack(const char *call) {
    if (painting) {
        say("stack\t");
        say(call);
        say("\t");
        put(stack_used, "\n");
    }
}

/* Makes a call in a function of its own, whose stack pointer stays where it is. */
#define CALLING(NAME, ...)                                \
    APART void NAME(uint32_t n, uint32_t i, uint32_t k) { \
        volatile uint8_t *here = stack_pointer();         \
        (void)n, (void)i, (void)k;                        \
        paint(here);                                      \
        serduzhap_##NAME(__VA_ARGS__);                    \
        look_below(here);                                 \
    }
#define LENT(BUFFER, COUNT) (COUNT) > 0 ? BUFFER : 0, COUNT

CALLING(check, LENT(text, text_len), LENT(work, n), answer)
CALLING(report, LENT(text, text_len), LENT(work, n), LENT(out, k), answer)
CALLING(message, LENT(text, text_len), LENT(work, n), i, LENT(bytes, k), answer)
CALLING(name, LENT(text, text_len), LENT(work, n), i, answer)
CALLING(version, answer)

/* ---- calls and their lines */

/* Fills n numbers of work, k of output and m bytes, each with a value; what is behind them and the answer, with the
   pattern. */
static void prepare(uint32_t n, uint32_t value, uint32_t k, uint32_t before, uint32_t m) {
    fill(answer, SERDUZHAP_CHECK_ANSWER + BEHIND, PATTERN);
    fill(work, n, value);
    fill(work + n, BEHIND, PATTERN);
    fill(out, k, before);
    fill(out + k, BEHIND, PATTERN);
    memset(bytes, 255, m);
    memset(bytes + m, (uint8_t)PATTERN, BEHIND);
}

static void run_check(uint32_t n, uint32_t value) {
    prepare(n, value, 0, 0, 0);
    check(n, 0, 0);
    say("check\t");
    say_answer(SERDUZHAP_CHECK_ANSWER, n, 0, 0);
    say("\n");
    say_stack("check");
}

static void run_report(uint32_t n, uint32_t k, uint32_t value) {
    prepare(n, value, k, value, 0);
    report(n, 0, k);
    say("report\t");
    say_answer(SERDUZHAP_REPORT_ANSWER, n, k, 0);
    put(sum_of(out, k), "\n");
    say_stack("report");
}

static void run_message(uint32_t i, uint32_t k) {
    prepare(NUMBERS, ONES, 0, 0, k);
    message(NUMBERS, i, k);
    say("message\t");
    say_answer(SERDUZHAP_MESSAGE_ANSWER, NUMBERS, 0, k);
    if (answer[SERDUZHAP_AT_NUMBER] == SERDUZHAP_WRITTEN)
        say_bytes(bytes, least(answer[SERDUZHAP_AT_COUNT], k));
    say("\t");
    put(sum_of_bytes(bytes, k), "\n");
    say_stack("message");
}

static void run_name(uint32_t i) {
    prepare(NUMBERS, ONES, 0, 0, 0);
    name(NUMBERS, i, 0);
    say("name\t");
    say_answer(SERDUZHAP_NAME_ANSWER, NUMBERS, 0, 0);
    uint32_t at = least(answer[SERDUZHAP_AT_OFFSET], text_len);
    say_bytes(text + at, least(answer[SERDUZHAP_AT_LENGTH], text_len - at));
    say("\n");
    say_stack("name");
}

static void run_version(void) {
    prepare(0, 0, 0, 0, 0);
    version(0, 0, 0);
    say("version\t");
    say_answer(SERDUZHAP_VERSION_ANSWER, 0, 0, 0);
    say("\n");
    say_stack("version");
}

/* ---- frames */

static uint32_t number_at(uint32_t at) {
    uint32_t number = 0;
    for (uint32_t i = 4; i-- > 0;)
        number = number << 8 | (at + i < frames_len ? frames[at + i] : 0);
    return number;
}

static void take_text(uint32_t at, uint32_t times, uint32_t count) {
    for (uint32_t k = 0; k < times; k++)
        for (uint32_t i = 0; i < count && at + i < frames_len && text_len < TEXT; i++)
            text[text_len++] = frames[at + i];
}

/* Runs the frame at an offset, and answers where the next one is. */
static uint32_t run_frame(uint32_t at) {
    uint32_t a = number_at(at + 1), b = number_at(at + 5), from = at + 9;
    switch (frames[at]) {
    case 't':
        text_len = 0;
        take_text(from, 1, b);
        return from + b;
    case 'r':
        take_text(from, a, b);
        return from + b;
    case 'c':
        run_check(least(a, NUMBERS), b);
        break;
    case 'p':
        run_report(least(a, NUMBERS), least(b, NUMBERS), ONES);
        break;
    case 'q':
        run_report(least(a, NUMBERS), least(b, NUMBERS), 0);
        break;
    case 'm':
        run_message(a, least(b, BYTES));
        break;
    case 'n':
        run_name(a);
        break;
    case 'v':
        run_version();
        break;
    case 's':
        painting = a;
        break;
    default:
        say("wrong: no such frame\n");
    }
    return from;
}

__attribute__((used)) void run(void) {
    frames_len = read_all(frames, FRAMES);
    for (uint32_t at = 0; at < frames_len;)
        at = run_frame(at);
    flush();
#if !defined(__wasm__)
    ask(EXIT, 0, 0, 0);
#endif
}

#if defined(__x86_64__)
__asm__(".globl _start\n_start: call run\n");
#elif defined(__aarch64__)
__asm__(".globl _start\n_start: bl run\n");
#elif defined(__thumb__)
__asm__(".thumb\n.globl _start\n.thumb_func\n_start: bl run\n");
#elif defined(__arm__)
__asm__(".arm\n.globl _start\n_start: bl run\n");
#elif defined(__riscv)
__asm__(".globl _start\n_start: call run\n");
#endif

// Reads pairs of 64-bit numbers and writes, for each pair, what the processor makes of it: the 13
// instructions of M, then the nine of A on words and on doublewords. An AMO gives what it returned
// and what memory then holds. judge.rs has the same order.
//
// It stands on Linux's read, write and exit alone, so that any RISC-V gcc builds it.

typedef unsigned long u64;
typedef unsigned int u32;

enum { READ = 63, WRITE = 64, EXIT = 93 };

static long call(long number, long a, void *b, u64 c)
{
    register long a0 asm("a0") = a;
    register void *a1 asm("a1") = b;
    register u64 a2 asm("a2") = c;
    register long a7 asm("a7") = number;
    asm volatile("ecall" : "+r"(a0) : "r"(a1), "r"(a2), "r"(a7) : "memory");
    return a0;
}

// The bytes moved: fewer than asked for only at the end of the input.
static u64 move(long number, long file, void *at, u64 length)
{
    u64 done = 0;
    while (done < length) {
        long now = call(number, file, (char *)at + done, length - done);
        if (now < 0)
            call(EXIT, 1, 0, 0);
        if (now == 0)
            break;
        done += now;
    }
    return done;
}

#define M(name)                                                               \
    asm volatile(name " %0, %1, %2" : "=r"(rd) : "r"(left), "r"(right));       \
    *out++ = rd;

#define A(name, type)                                                         \
    {                                                                         \
        type memory = left;                                                   \
        asm volatile(name " %0, %2, %1"                                       \
                     : "=&r"(rd), "+A"(memory)                                \
                     : "r"(right));                                           \
        *out++ = rd;                                                          \
        *out++ = memory;                                                      \
    }

#define A_ALL(width, type)                                                    \
    A("amoswap." width, type)                                                 \
    A("amoadd." width, type)                                                  \
    A("amoxor." width, type)                                                  \
    A("amoand." width, type)                                                  \
    A("amoor." width, type)                                                   \
    A("amomin." width, type)                                                  \
    A("amomax." width, type)                                                  \
    A("amominu." width, type)                                                 \
    A("amomaxu." width, type)

static u64 *execute(u64 left, u64 right, u64 *out)
{
    u64 rd;
    M("mul") M("mulh") M("mulhu") M("mulhsu")
    M("div") M("divu") M("rem") M("remu")
    M("mulw") M("divw") M("divuw") M("remw") M("remuw")
    A_ALL("w", u32)
    A_ALL("d", u64)
    return out;
}

enum { PAIRS = 256, ANSWERS = 13 + 2 * 9 * 2 };

static u64 operands[2 * PAIRS];
static u64 answers[ANSWERS * PAIRS];

void _start(void)
{
    for (;;) {
        u64 length = move(READ, 0, operands, sizeof operands);
        u64 *end = answers;
        for (u64 i = 0; i < length / 16; i++)
            end = execute(operands[2 * i], operands[2 * i + 1], end);
        move(WRITE, 1, answers, (char *)end - (char *)answers);
        if (length < sizeof operands)
            call(EXIT, 0, 0, 0);
    }
}

// A machine of its own, without a system: in M-mode it sets fields of mstatus in every way, and each
// time goes to S-mode, which reads sstatus. It writes both words to the serial line, eight bytes each,
// and switches off. sstatus.rs has what is asked of them.

typedef unsigned long u64;
typedef unsigned char u8;

// Places of the board: the serial line's data and state, and the switch.
#define DATA (*(volatile u8 *)0x10000000)
#define STATE (*(volatile u8 *)0x10000005)
#define SWITCH (*(volatile unsigned *)0x100000)

enum { READY = 0x20, OFF = 0x5555 };

// The lowest bit of each field that S-mode sees and this processor takes, and how many bits it has:
// SIE, SPIE, SPP, VS, FS, SUM, MXR. XS is read-only 0 there, it has no UBE, and UXL is left as it is.
static const struct {
    int lowest, bits;
} fields[] = {{1, 1}, {5, 1}, {8, 1}, {9, 2}, {13, 2}, {18, 1}, {19, 1}};

static const u64 FIELD_BITS = 9;
static const u64 MPP_S = 1 << 11;

// The board begins at the start of its memory.
asm(".section .boot, \"ax\"\n"
    ".globl _start\n"
    "_start: la sp, _start + 0x10000\n"
    "j begin\n"
    ".text\n");

static void write(u64 word)
{
    for (int i = 0; i < 8; i++, word >>= 8) {
        while (!(STATE & READY)) {
        }
        DATA = word;
    }
}

// What S-mode sees, which comes back by a call.
static u64 seen_in_s(void)
{
    u64 sstatus;
    asm volatile("la t0, 1f\n"
                 "csrw mepc, t0\n"
                 "la t0, 2f\n"
                 "csrw mtvec, t0\n"
                 "mret\n"
                 "1: csrr %0, sstatus\n"
                 "ecall\n"
                 ".balign 4\n"
                 "2:\n"
                 : "=r"(sstatus)
                 :
                 : "t0", "memory");
    return sstatus;
}

void begin(void)
{
    // S-mode may read, write and execute all memory.
    asm volatile("csrw pmpaddr0, %0\n"
                 "csrw pmpcfg0, %1\n"
                 :
                 : "r"(-1L), "r"(0x1FL));

    for (u64 choice = 0; choice < 1 << FIELD_BITS; choice++) {
        u64 mstatus = MPP_S, rest = choice;
        for (unsigned i = 0; i < sizeof fields / sizeof *fields; i++) {
            mstatus |= (rest & ((1 << fields[i].bits) - 1)) << fields[i].lowest;
            rest >>= fields[i].bits;
        }
        asm volatile("csrc mstatus, %1\n"
                     "csrs mstatus, %0\n"
                     :
                     : "r"(mstatus), "r"(0x7FFFEAL));
        asm volatile("csrr %0, mstatus" : "=r"(mstatus));
        write(mstatus);
        write(seen_in_s());
    }
    SWITCH = OFF;
    for (;;) {
    }
}

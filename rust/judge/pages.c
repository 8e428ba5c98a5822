// A machine of its own, without a system: it makes page table entries of every kind, and from every
// state of its hart that could matter it fetches, loads and stores by them. What came of each it
// leaves in its memory, and switches off. pages.rs reads that memory, tables included, and asks the
// library the same. Before that it writes satp in every mode.
//
// To try more, add a row: to `sites` an address, with what its entry names; to `sound` the flags of an
// entry that nothing is wrong with, which is then spoilt bit by bit; to `probes` a way to reach for the
// address. Another bit of the entry or of mstatus is one more count. Each goes to the same spot of
// pages.rs or of the files in pages/, too.

typedef unsigned long u64;

#define LENGTH(list) (sizeof(list) / sizeof *(list))

// The same in pages/: where the tables and the answers stand. The number of answers is written last.
#define ROOT 0x80100000UL
#define LEVEL1 0x80101000UL
#define LEVEL0 0x80102000UL
#define COUNT (*(volatile u64 *)0x80103000)
#define SATPS ((volatile u64 *)0x80104000)
#define ANSWERS ((struct answer *)0x81000000)

// Where U-mode finds the code of the probes: a copy of it, on a page that has U.
#define USER 0x80E00000UL

// Where the board is switched off.
#define SWITCH (*(volatile unsigned *)0x100000)

// satp with these tables; and the bits of an address that are copies of one another, which are set in
// the upper half of the addresses.
#define SV39 (8UL << 60 | ROOT >> 12)
#define HIGH (-1UL << 38)

// The bits of an entry that no leaf and no pointer has.
#define RESERVED (-1UL << 54)

enum { OFF = 0x5555 };
enum { V = 1, R = 2, W = 4, X = 8, U = 16, A = 64, D = 128 };
enum { MODE_U = 0, MODE_S = 1, MODE_M = 3 };
enum { SPP = 8, MPP = 11, MPRV = 17, SUM = 18, MXR = 19 };

// The cause and value of the trap that ended a probe, which is a call where nothing was refused; the
// page that it reached, or 0; and the entry after it.
struct answer {
    u64 cause, value, page, entry;
};

// The entry for `address` in the table of `level` names `target`. As a leaf it maps the page there, or
// the superpage. As a pointer it leads to a table there, and the entry for the address in that one maps
// `beyond`, for user mode; at level 0 there is none.
//
// The one gigapage in memory begins where the board does. Taken for a table, that code is the first two
// of its entries, which are not asked for.
static const struct site {
    u64 satp, level, address, target, beyond;
} sites[] = {
    {SV39, 0, 0x80203128, 0x80405000, 0},
    {SV39, 1, 0x80605128, 0x80800000, 0x80407000},
    {SV39, 2, 0xC0A07128, 0x80000000, 0x80C00000},
    {SV39, 0, HIGH | 0x80203128, 0x80405000, 0},
    {SV39, 1, HIGH | 0x80605128, 0x80800000, 0x80407000},
    {SV39, 2, HIGH | 0xC0A07128, 0x80000000, 0x80C00000},
    {0, 0, 0x80203128, 0x80405000, 0},
};

// The flags of entries that nothing is wrong with: a leaf, user mode's leaf, and a pointer.
static const u64 sound[] = {D | A | X | W | R | V, D | A | U | X | W | R | V, V};

// The code of each probe: it reaches for the address in a1, and what it reads goes to a0. Where a
// probe has none, the address is jumped to. The last is no probe: it writes satp.
asm(".text\n"
    ".balign 4\n"
    "codes:\n"
    "load: ld a0, (a1)\n"
    "ecall\n"
    "store: sd a1, (a1)\n"
    "ecall\n"
    "set_satp: csrw satp, a1\n"
    "ecall\n"
    "codes_end:\n");
extern char codes[], load[], store[], set_satp[], codes_end[];

static char *const probes[] = {0, load, store};

// The board begins at the start of its memory.
asm(".section .boot, \"ax\"\n"
    ".globl _start\n"
    "_start: la sp, _start + 0x10000\n"
    "j begin\n"
    ".text\n");

static volatile u64 *at(u64 place)
{
    return (volatile u64 *)place;
}

static void fence(void)
{
    asm volatile("sfence.vma" : : : "memory");
}

// Memory begins at 0x80000000 and is 32 MiB long. An address elsewhere ends in an access fault where it
// is not paged.
static int is_memory(u64 place)
{
    return place >> 25 == 0x80000000 >> 25;
}

// What stands at a place that is reached: lui a0, PAGE and ecall. So the page is in the upper bits of
// a0's low word, whether that was loaded or executed.
static u64 content(u64 place)
{
    return 0x73UL << 32 | (place & 0xFFFFF000) | 0x537;
}

// The page of a place in memory if its content was another, which is mended; else 0.
static u64 mend(u64 place)
{
    if (!is_memory(place) || *at(place) == content(place))
        return 0;
    *at(place) = content(place);
    asm volatile("fence.i" : : : "memory");
    return place >> 12;
}

// Where a table of this level has the entry for the address.
static u64 entry_in(u64 table, u64 level, u64 address)
{
    return table + 8 * (address >> (12 + 9 * level) & 511);
}

static u64 entry_of(const struct site *site)
{
    static const u64 tables[] = {LEVEL0, LEVEL1, ROOT};
    return entry_in(tables[site->level], site->level, site->address);
}

// Where a page of this level leads the address.
static u64 inside(u64 page, u64 level, u64 address)
{
    return page + (address & ((1UL << (12 + 9 * level)) - 1));
}

// The page that was reached at a site, if that can be seen there; all that could be is mended.
static u64 mend_all(const struct site *site, u64 address)
{
    u64 page = mend(address) | mend(inside(site->target, site->level, address));
    if (site->level)
        page |= mend(inside(site->beyond, site->level - 1, address));
    return page;
}

// A lower mode is entered by SRET, which leaves MPP as it is; MRET would set it. Both clear MPRV, which
// lower modes can't set: only M-mode ever has it. Every trap leads to M-mode, to the second label, and
// sets MPP to where it came from, so the fields are cleared there before memory is used.
static struct answer attempt(u64 mode, u64 mstatus, u64 code, u64 address)
{
    struct answer answer;
    register u64 a0 asm("a0") = 0;
    register u64 a1 asm("a1") = address;
    asm volatile("la t0, 2f\n"
                 "csrw mtvec, t0\n"
                 "csrw sepc, %[code]\n"
                 "csrc mstatus, %[fields]\n"
                 "csrs mstatus, %[mstatus]\n"
                 "bnez %[stay], 1f\n"
                 "sret\n"
                 "1: jr %[code]\n"
                 ".balign 4\n"
                 "2: csrc mstatus, %[fields]\n"
                 : "+r"(a0)
                 : "r"(a1), [stay] "r"(mode == MODE_M), [code] "r"(code),
                   [mstatus] "r"(mstatus | (mode & 1) << SPP),
                   [fields] "r"(1UL << SPP | 3UL << MPP | 1UL << MPRV | 1UL << SUM | 1UL << MXR)
                 : "t0", "memory");
    asm volatile("csrr %0, mcause" : "=r"(answer.cause));
    asm volatile("csrr %0, mtval" : "=r"(answer.value));
    answer.page = (a0 & 0xFFFFFFFF) >> 12;
    return answer;
}

static void prepare(void)
{
    // The lower modes may read, write and execute all memory, as far as pages let them.
    asm volatile("csrw pmpaddr0, %0\n"
                 "csrw pmpcfg0, %1\n"
                 "csrw medeleg, x0\n"
                 :
                 : "r"(-1L), "r"(0x1FL));

    *at(entry_in(ROOT, 2, 0x80000000)) = LEVEL1 >> 2 | V;
    *at(entry_in(ROOT, 2, HIGH | 0x80000000)) = LEVEL1 >> 2 | V;
    *at(entry_in(LEVEL1, 1, 0x80000000)) = 0x80000000UL >> 2 | A | X | V;
    *at(entry_in(LEVEL1, 1, 0x80200000)) = LEVEL0 >> 2 | V;
    *at(entry_in(LEVEL1, 1, USER)) = USER >> 2 | A | U | X | V;
    for (long i = 0; i < codes_end - codes; i++)
        ((volatile char *)USER)[i] = codes[i];

    for (unsigned i = 0; i < LENGTH(sites); i++) {
        const struct site *site = &sites[i];
        *at(entry_of(site)) = site->target >> 2 | sound[0];
        if (site->level) {
            u64 next = entry_in(site->target, site->level - 1, site->address);
            *at(next) = site->beyond >> 2 | sound[1];
        }
        mend_all(site, site->address);
    }
}

// What satp reads after a write, by S-mode and by M-mode, of each mode of it. If S-mode then finds no
// more code, that is a trap like the call that would follow.
static void write_satp(void)
{
    static const u64 modes[] = {MODE_S, MODE_M};
    static const u64 before[] = {0, SV39, SV39 | 0x5A5AUL << 44};
    static const u64 rest[] = {0, ROOT >> 12, 0xFFFFUL << 44 | ROOT >> 12, -1UL >> 4};
    volatile u64 *next = SATPS;

    for (unsigned m = 0; m < LENGTH(modes); m++)
        for (unsigned b = 0; b < LENGTH(before); b++)
            for (u64 mode = 0; mode < 16; mode++)
                for (unsigned r = 0; r < LENGTH(rest); r++) {
                    u64 satp;
                    asm volatile("csrw satp, %0" : : "r"(before[b]) : "memory");
                    fence();
                    attempt(modes[m], 0, (u64)set_satp, mode << 60 | rest[r]);
                    asm volatile("csrr %0, satp" : "=r"(satp));
                    *next++ = satp;
                }
}

// Where a probe begins that is made in this mode.
static u64 start(char *code, u64 mode, u64 address)
{
    if (!code)
        return address;
    return mode == MODE_U ? USER + (code - codes) : (u64)code;
}

// Every probe of the address from every state, with this entry at the site: once with a fence before
// each, and once only after the entry was written, since what the hart is allowed follows its mode and
// its mstatus at once. Gives where the next answer goes.
static struct answer *try(struct answer *next, const struct site *site, u64 address, u64 entry)
{
    static const u64 modes[] = {MODE_U, MODE_S, MODE_M};
    volatile u64 *place = at(entry_of(site));

    for (int round = 0; round < 2; round++) {
        *place = entry;
        fence();

        for (u64 state = 0; state < 3 * 2 * 3 * 2 * 2; state++) {
            u64 mode = modes[state / 24], mprv = state / 12 % 2;
            u64 mstatus = mprv << MPRV | modes[state / 4 % 3] << MPP |
                          (state / 2 % 2) << SUM | (state % 2) << MXR;
            if (mprv && mode != MODE_M)
                continue;

            for (unsigned p = 0; p < LENGTH(probes); p++) {
                if (round == 0)
                    fence();
                *next = attempt(mode, mstatus, start(probes[p], mode, address), address);
                next->page |= mend_all(site, address);
                next++->entry = *place;
            }
        }
    }
    return next;
}

// The bits of a sound entry that must be as they are: V, of a superpage the low ones of its page number,
// and those reserved.
static u64 strict_bits(const struct site *site, u64 entry)
{
    u64 low = ((1UL << 9 * site->level) - 1) << 10;
    return RESERVED | (entry & R ? low : 0) | V;
}

void begin(void)
{
    struct answer *next = ANSWERS;

    prepare();
    write_satp();
    for (unsigned i = 0; i < LENGTH(sites); i++) {
        const struct site *site = &sites[i];
        asm volatile("csrw satp, %0" : : "r"(site->satp) : "memory");

        // R, W, X and U stand side by side, and so do A and D.
        for (u64 flags = 0; flags < 64; flags++) {
            u64 entry = site->target >> 2 | (flags >> 4) << 6 | (flags & 15) << 1 | V;
            next = try(next, site, site->address, entry);
        }

        // One bit of the entry is wrong, or one of those of the address that are copies.
        for (unsigned s = 0; s < LENGTH(sound); s++) {
            u64 entry = site->target >> 2 | sound[s];
            for (u64 bit = 1; bit; bit <<= 1)
                if (bit & strict_bits(site, entry))
                    next = try(next, site, site->address, entry ^ bit);
            for (u64 bit = 1; bit; bit <<= 1)
                if (bit & HIGH)
                    next = try(next, site, site->address ^ bit, entry);
        }
    }
    COUNT = next - ANSWERS;
    SWITCH = OFF;
    for (;;) {
    }
}

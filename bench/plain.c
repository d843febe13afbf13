/* A plain interpreter of the machine in C, for measuring: the instructions,
 * grants and stops of machine.md. It does what a quick one would do and no
 * more: what a word means is looked up in a table of all 65,536, which has
 * its base, and its D in bytes; of each use of the store the range that
 * served it last is asked first; and the program's registers are variables
 * of the loop over its steps.
 *
 *     plain BOOK IMAGE JOB RECORDS RUNS
 *
 * loads the first record, runs the job on it RUNS times and prints steps,
 * microseconds, a checksum of the output bytes, and the registers.
 *
 * It takes its input to be good: book.md's refusals are not looked for. */

#define _POSIX_C_SOURCE 199309L
#include <stdint.h>
#include <stdio.h>
#include <stdlib.h>
#include <string.h>
#include <time.h>

/* A step is one piece, but for what is seldom done. */
#define INLINE inline __attribute__((always_inline))
#define NOINLINE __attribute__((noinline))

#define NAMES_A(X) \
    X(LDB) X(LD) X(LDW) X(LDX) X(STB) X(ST) X(STW) X(STX) X(AD) X(ADW) X(SB) \
    X(SBW) X(ADX) X(SBX) X(CP) X(CPW) X(CPX) X(NW) X(NX) X(MX) X(DX) X(LDY) \
    X(STY) X(ADY) X(SBY) X(LDZ) X(STZ) X(ADZ) X(SBZ) X(BI) X(BLI)
#define NAMES_L(X) \
    X(LDL) X(ADL) X(SBL) X(CPL) X(NL) X(ML) X(BITX) \
    X(BZ) X(BNZ) X(BN) X(BNN) X(BCA) X(BOF)
#define NAMES_B(X) X(B) X(BL)
#define NAMES_FIXED(X) \
    X(MBS) X(CPBS) X(TRBS) X(SCBS) X(MHS) X(RK) X(HRK) X(SFN) X(SIM) X(SFM) X(BITL)

#define ENUM(name) name,
#define TEXT(name) #name,

enum name {
    UNDEFINED,
    NAMES_A(ENUM) NAMES_L(ENUM) NAMES_B(ENUM) NAMES_FIXED(ENUM)
    NAME_COUNT
};

static const char *const texts[] = {
    "", NAMES_A(TEXT) NAMES_L(TEXT) NAMES_B(TEXT) NAMES_FIXED(TEXT)
};

enum format { A1, A2, A3, A4, A5, L, B_FORMAT };

static const int m_bits[] = { 0, 2, 0, 2, 2, 0, 0 };
static const int d_bits[] = { 8, 7, 6, 5, 4, 8, 10 };

/* What an operand's address begins with. */
enum { AT_ZERO, AT_L, AT_S, AT_Y, AT_Z };

struct instruction {
    uint8_t name;
    uint8_t base;
    uint8_t is_a;       /* an operand in the store */
    uint8_t by_pointer; /* A3, A4 */
    int16_t d;          /* in bytes, where it counts items, halfwords or words */
    int16_t index;      /* the bytes by which x counts, or 0 */
};

struct registers {
    int32_t a;
    uint32_t b;
    int16_t x;
    uint16_t at[5]; /* by what an address may begin with */
    int fm, n, zr, of, ca;
};

enum use { FETCH, POINTER, OPERAND, RESULT };

/* The bytes from first to before end. */
struct range {
    unsigned first, end;
};

/* Those of grants: of all, or of the write grants. */
struct ranges {
    int count;
    struct range list[6];
};

struct bay {
    struct registers r;
    struct ranges readable, writable;
    struct range recent[4]; /* for each use the one that served it last */
    int cause;              /* of the stop that stands, or 0 */
    uint16_t stop_address, stop_byte;
    int stop_use;
};

static struct instruction readings[65536];
static uint8_t store[65536];

/* ---- readings */

static int class_number[4][64]; /* names by letter A, L, B and number */
static char patterns[5][8];

static int item_length(int name)
{
    switch (name) {
    case LDB: case STB: return 1;
    case LDW: case STW: case ADW: case SBW: case CPW: case NW: return 4;
    default: return 2;
    }
}

static struct instruction reading(int name, int format, unsigned word)
{
    static const uint8_t bases[] = { AT_L, AT_S, AT_Y, AT_Z };
    struct instruction i = { .name = (uint8_t)name };
    int d = (int)(word & ((1u << d_bits[format]) - 1));
    unsigned m = word >> d_bits[format] & ((1u << m_bits[format]) - 1);
    int branches = name == B || name == BL || (name >= BZ && name <= BOF);
    if (branches && d >= 1 << (d_bits[format] - 1))
        d -= 1 << d_bits[format];
    i.d = (int16_t)(branches ? 2 * d : d);
    if (format <= A5) {
        int length = item_length(name);
        i.is_a = 1;
        i.by_pointer = format == A3 || format == A4;
        i.base = format == A1 || format == A3 || (format == A5 && m == 1) ? AT_ZERO : bases[m];
        i.d = (int16_t)(d * (i.by_pointer ? 2 : length));
        i.index = (int16_t)(format == A1 || format == A2 ? 0 : length);
    }
    return i;
}

static int format_of(unsigned word)
{
    for (int format = A1; format <= A5; format++) {
        const char *pattern = patterns[format];
        unsigned bit = 1u << 9;
        while (*pattern && (*pattern == '1') == ((word & bit) != 0))
            pattern++, bit >>= 1;
        if (!*pattern)
            return format;
    }
    return -1;
}

static void make_readings(void)
{
    static const struct { unsigned word; int name; } whole[] = {
        { 0x2700, MBS }, { 0x2740, CPBS }, { 0x2780, TRBS }, { 0x27C0, SCBS },
        { 0x3700, MHS }, { 0x1200, RK }, { 0x1201, HRK }, { 0x1202, SFN },
        { 0x1700, SIM }, { 0x1701, SFM },
    };
    for (unsigned word = 0x0400; word < 65536; word++) {
        int format, name;
        if (word < 0x1000) {
            format = B_FORMAT;
            name = class_number[2][word >> 10];
        } else if (word < 0x4000) {
            format = L;
            name = word >> 8 == 22 ? BITL : class_number[1][word >> 8];
        } else {
            format = format_of(word);
            name = class_number[0][word >> 10];
        }
        if (name != UNDEFINED)
            readings[word] = reading(name, format, word);
    }
    for (size_t i = 0; i < sizeof whole / sizeof *whole; i++) {
        struct instruction fixed = { .name = (uint8_t)whole[i].name };
        readings[whole[i].word] = fixed;
    }
}

/* ---- grants */

static NOINLINE int allowed_anew(struct bay *bay, enum use use, unsigned first, unsigned end)
{
    const struct ranges *ranges = use == RESULT ? &bay->writable : &bay->readable;
    const struct range *past = ranges->list + ranges->count;
    for (const struct range *range = ranges->list; range < past; range++)
        if (range->first <= first && end <= range->end) {
            bay->recent[use] = *range;
            return 1;
        }
    /* No range has them all: each byte for itself. */
    for (; first < end; first++) {
        const struct range *range = ranges->list;
        while (range < past && !(range->first <= first && first < range->end))
            range++;
        if (range == past) {
            bay->stop_use = use;
            bay->stop_byte = (uint16_t)first;
            return 0;
        }
    }
    return 1;
}

static INLINE int allowed(struct bay *bay, enum use use, unsigned first, unsigned length)
{
    const struct range *recent = &bay->recent[use];
    if (recent->first <= first && first + length <= recent->end)
        return 1;
    return allowed_anew(bay, use, first, first + length);
}

/* ---- accesses, at addresses modulo 65,536: the result is whether they are allowed */

static INLINE int read_byte(struct bay *bay, unsigned at, unsigned *value)
{
    at &= 0xFFFF;
    if (!allowed(bay, OPERAND, at, 1))
        return 0;
    *value = store[at];
    return 1;
}

static INLINE int read_halfword(struct bay *bay, enum use use, unsigned at, uint16_t *value)
{
    at &= 0xFFFE;
    if (!allowed(bay, use, at, 2))
        return 0;
    const uint8_t *bytes = &store[at];
    *value = (uint16_t)(bytes[0] << 8 | bytes[1]);
    return 1;
}

static INLINE int read_fullword(struct bay *bay, unsigned at, uint32_t *value)
{
    at &= 0xFFFC;
    if (!allowed(bay, OPERAND, at, 4))
        return 0;
    const uint8_t *bytes = &store[at];
    *value = (uint32_t)bytes[0] << 24 | (uint32_t)bytes[1] << 16 | (uint32_t)bytes[2] << 8 | bytes[3];
    return 1;
}

static INLINE int write_byte(struct bay *bay, unsigned at, unsigned value)
{
    at &= 0xFFFF;
    if (!allowed(bay, RESULT, at, 1))
        return 0;
    store[at] = (uint8_t)value;
    return 1;
}

static INLINE int write_halfword(struct bay *bay, unsigned at, unsigned value)
{
    at &= 0xFFFE;
    if (!allowed(bay, RESULT, at, 2))
        return 0;
    store[at] = (uint8_t)(value >> 8);
    store[at + 1] = (uint8_t)value;
    return 1;
}

static INLINE int write_fullword(struct bay *bay, unsigned at, uint32_t value)
{
    at &= 0xFFFC;
    if (!allowed(bay, RESULT, at, 4))
        return 0;
    store[at] = (uint8_t)(value >> 24);
    store[at + 1] = (uint8_t)(value >> 16);
    store[at + 2] = (uint8_t)(value >> 8);
    store[at + 3] = (uint8_t)value;
    return 1;
}

/* ---- instructions */

static INLINE void mark(struct registers *r, int n, int zr)
{
    r->n = n;
    r->zr = zr;
}

static INLINE void load_a(struct registers *r, int32_t value)
{
    r->a = value;
    mark(r, value < 0, value == 0);
}

static INLINE void load_x(struct registers *r, int16_t value)
{
    r->x = value;
    mark(r, value < 0, value == 0);
}

static INLINE int32_t apparent32(struct registers *r, int64_t exact)
{
    int32_t apparent = (int32_t)exact;
    mark(r, exact < 0, apparent == 0);
    r->of |= exact != apparent;
    return apparent;
}

static INLINE int16_t apparent16(struct registers *r, int32_t exact)
{
    int16_t apparent = (int16_t)exact;
    mark(r, exact < 0, apparent == 0);
    r->of |= exact != apparent;
    return apparent;
}

static INLINE int32_t add32(struct registers *r, int32_t operand)
{
    r->ca = (uint32_t)r->a + (uint32_t)operand < (uint32_t)operand;
    return apparent32(r, (int64_t)r->a + operand);
}

static INLINE int32_t subtract32(struct registers *r, int32_t operand)
{
    r->ca = (uint32_t)r->a < (uint32_t)operand;
    return apparent32(r, (int64_t)r->a - operand);
}

static INLINE int16_t add16(struct registers *r, int16_t operand)
{
    r->ca = (uint16_t)r->x + (uint16_t)operand > 65535;
    return apparent16(r, r->x + operand);
}

static INLINE int16_t subtract16(struct registers *r, int16_t operand)
{
    r->ca = (uint16_t)r->x < (uint16_t)operand;
    return apparent16(r, r->x - operand);
}

static INLINE int bit_instruction(struct registers *r, unsigned control)
{
    unsigned bit = 0x8000u >> (control & 15);
    unsigned al = (uint32_t)r->a & 0xFFFF;
    int zr;
    switch (control >> 4 & 15) {
    case 0: zr = !(al & bit); break;
    case 9: al ^= bit; zr = !al; break;
    case 10: al = bit; zr = 0; break;
    case 11: al |= bit; zr = 0; break;
    case 14: al &= ~bit; zr = !al; break;
    default: return 0;
    }
    r->a = (int32_t)(((uint32_t)r->a & 0xFFFF0000u) | al);
    r->zr = zr;
    return 1;
}

/* Whether it is done. s goes back to the instruction while the string goes on. */
static INLINE int string(struct bay *bay, struct registers *r, int name)
{
    int16_t x = r->x;
    unsigned from, to, byte;
    uint16_t halfword;
    int differs = 0, n = 0;
    if (x == 0) {
        mark(r, 0, 1);
        return 1;
    }
    x += x < 0 ? 1 : -1;
    switch (name) {
    case MBS:
        if (!read_byte(bay, (unsigned)(r->at[AT_Z] + x), &byte)
            || !write_byte(bay, (unsigned)(r->at[AT_Y] + x), byte))
            return 0;
        break;
    case MHS:
        if (!read_halfword(bay, OPERAND, (unsigned)(r->at[AT_Z] + 2 * x), &halfword)
            || !write_halfword(bay, (unsigned)(r->at[AT_Y] + 2 * x), halfword))
            return 0;
        break;
    case TRBS:
        if (!read_byte(bay, (unsigned)(r->at[AT_Y] + x), &byte)
            || !read_byte(bay, (unsigned)(r->at[AT_Z] + byte), &byte)
            || !write_byte(bay, (unsigned)(r->at[AT_Y] + x), byte))
            return 0;
        break;
    case CPBS:
        if (!read_byte(bay, (unsigned)(r->at[AT_Z] + x), &from)
            || !read_byte(bay, (unsigned)(r->at[AT_Y] + x), &to))
            return 0;
        differs = from != to;
        n = from < to;
        break;
    default: /* SCBS */
        if (!read_byte(bay, (unsigned)(r->at[AT_Y] + x), &byte)
            || !read_byte(bay, (unsigned)(r->at[AT_Z] + byte), &byte))
            return 0;
        differs = (byte & (uint32_t)r->a & 255) != 0;
        break;
    }
    r->x = x;
    if (x == 0)
        mark(r, 0, 1);
    else if (differs)
        mark(r, n, 0);
    else
        r->at[AT_S] -= 2;
    return 1;
}

/* ---- operands: the result is whether all accesses are allowed */

static INLINE int operand_address(struct bay *bay, const struct registers *r,
    const struct instruction *i, unsigned *at)
{
    unsigned address = r->at[i->base] + (unsigned)i->d;
    uint16_t pointer;
    if (i->by_pointer) {
        if (!read_halfword(bay, POINTER, address, &pointer))
            return 0;
        address = pointer;
    }
    *at = address + (unsigned)(i->index * r->x);
    return 1;
}

/* Does one step: 0 if done, else the cause, and then nothing but s was altered. */
static INLINE int step(struct bay *bay, struct registers *r)
{
    uint16_t word, halfword;
    int16_t h;
    uint32_t fullword;
    int32_t w;
    unsigned byte, at = 0;

    if (!read_halfword(bay, FETCH, r->at[AT_S], &word))
        return 2;
    const struct instruction *i = &readings[word];
    r->at[AT_S] += 2;
    if (i->is_a) {
        if (r->fm)
            return 4;
        if (!operand_address(bay, r, i, &at))
            return 2;
    }

/* What the operand holds, and what goes there. */
#define HALFWORD \
    if (!read_halfword(bay, OPERAND, at, &halfword)) \
        return 2; \
    h = (int16_t)halfword
#define FULLWORD \
    if (!read_fullword(bay, at, &fullword)) \
        return 2; \
    w = (int32_t)fullword
#define PUT(value) \
    if (!write_halfword(bay, at, (unsigned)(value))) \
        return 2

    switch (i->name) {
    case LDB:
        if (!read_byte(bay, at, &byte))
            return 2;
        load_a(r, (int32_t)byte);
        break;
    case LD: HALFWORD; load_a(r, h); break;
    case LDW: FULLWORD; load_a(r, w); break;
    case LDL: load_a(r, i->d); break;
    case LDX: HALFWORD; load_x(r, h); break;

    case STB:
        byte = (uint32_t)r->a & 255;
        if (!write_byte(bay, at, byte))
            return 2;
        mark(r, 0, byte == 0);
        break;
    case ST:
        PUT(r->a);
        mark(r, (int16_t)r->a < 0, (int16_t)r->a == 0);
        r->of |= r->a != (int16_t)r->a;
        break;
    case STW:
        if (!write_fullword(bay, at, (uint32_t)r->a))
            return 2;
        mark(r, r->a < 0, r->a == 0);
        break;
    case STX: PUT(r->x); mark(r, r->x < 0, r->x == 0); break;

    case AD: HALFWORD; r->a = add32(r, h); break;
    case ADW: FULLWORD; r->a = add32(r, w); break;
    case ADL: r->a = add32(r, i->d); break;
    case ADX: HALFWORD; r->x = add16(r, h); break;
    case SB: HALFWORD; r->a = subtract32(r, h); break;
    case SBW: FULLWORD; r->a = subtract32(r, w); break;
    case SBL: r->a = subtract32(r, i->d); break;
    case SBX: HALFWORD; r->x = subtract16(r, h); break;
    case CP: HALFWORD; subtract32(r, h); break;
    case CPW: FULLWORD; subtract32(r, w); break;
    case CPL: subtract32(r, i->d); break;
    case CPX: HALFWORD; subtract16(r, h); break;

    case NW: FULLWORD; load_a(r, r->a & w); break;
    case NL: load_a(r, r->a & i->d); break;
    case NX: HALFWORD; load_x(r, r->x & h); break;
    case ML: r->a = apparent32(r, (int64_t)r->a * i->d); break;
    case MX: HALFWORD; r->x = apparent16(r, r->x * h); break;
    case DX:
        HALFWORD;
        if (h == 0 || (r->x == -32768 && h == -1))
            r->of = 1;
        else
            load_x(r, (int16_t)(r->x / h));
        break;

    case LDY: HALFWORD; r->at[AT_Y] = (uint16_t)h; break;
    case LDZ: HALFWORD; r->at[AT_Z] = (uint16_t)h; break;
    case STY: PUT(r->at[AT_Y]); break;
    case STZ: PUT(r->at[AT_Z]); break;
    case ADY: HALFWORD; r->at[AT_Y] = (uint16_t)(r->at[AT_Y] + h); break;
    case ADZ: HALFWORD; r->at[AT_Z] = (uint16_t)(r->at[AT_Z] + h); break;
    case SBY: HALFWORD; r->at[AT_Y] = (uint16_t)(r->at[AT_Y] - h); break;
    case SBZ: HALFWORD; r->at[AT_Z] = (uint16_t)(r->at[AT_Z] - h); break;

    case BI: HALFWORD; r->at[AT_S] = (uint16_t)h; break;
    case BLI: HALFWORD; r->at[AT_Z] = r->at[AT_S]; r->at[AT_S] = (uint16_t)h; break;
    case B: r->at[AT_S] += i->d; break;
    case BL: r->at[AT_Z] = r->at[AT_S]; r->at[AT_S] += i->d; break;
    case BZ: if (r->zr) r->at[AT_S] += i->d; break;
    case BNZ: if (!r->zr) r->at[AT_S] += i->d; break;
    case BN: if (r->n) r->at[AT_S] += i->d; break;
    case BNN: if (!r->n) r->at[AT_S] += i->d; break;
    case BCA: if (r->ca) r->at[AT_S] += i->d; break;
    case BOF: if (r->of) r->at[AT_S] += i->d; r->of = 0; break;

    case BITL:
        if (!bit_instruction(r, (unsigned)i->d))
            return 1;
        break;
    case BITX:
        if (!bit_instruction(r, (unsigned)(i->d + r->x)))
            return 1;
        break;

    case RK: case SFN: load_a(r, 0); break;
    case SFM: r->fm = 1; break;
    case SIM: r->fm = 0; break;
    case HRK: return 3;
    case UNDEFINED: return 1;
    default:
        if (!string(bay, r, i->name))
            return 2;
        break;
    }
    return 0;
}

/* Does steps until their number is the budget, or one stops. */
static unsigned turn(struct bay *bay, unsigned budget)
{
    struct registers r = bay->r;
    unsigned steps = 0;
    if (bay->cause)
        return 0;
    for (; steps < budget; steps++) {
        uint16_t s = r.at[AT_S];
        bay->cause = step(bay, &r);
        if (bay->cause) {
            bay->stop_address = r.at[AT_S] = s;
            break;
        }
    }
    bay->r = r;
    return steps;
}

/* ---- files */

static void fail(const char *what)
{
    fprintf(stderr, "plain: %s\n", what);
    exit(1);
}

static FILE *open_file(const char *path)
{
    FILE *file = fopen(path, "rb");
    if (!file)
        fail(path);
    return file;
}

static int name_of(const char *text)
{
    for (int name = 1; name < NAME_COUNT; name++)
        if (!strcmp(texts[name], text))
            return name;
    fail(text);
    return UNDEFINED;
}

static void read_book(const char *path)
{
    FILE *file = open_file(path);
    char letter, name[8], value[8];
    while (fscanf(file, "%c\t%7[^\t]\t%7[^\n]\n", &letter, name, value) == 3) {
        if (letter == 'F')
            strcpy(patterns[name[1] - '1'], value);
        else
            class_number[letter == 'A' ? 0 : letter == 'L' ? 1 : 2][atoi(value) & 63] = name_of(name);
    }
    fclose(file);
    make_readings();
}

struct job {
    struct registers registers;
    unsigned input, output, halfwords_in, halfwords_out, count, budget;
};

static void read_job(const char *path, struct job *job, struct bay *bay)
{
    FILE *file = open_file(path);
    char line[256], kind[8];
    unsigned v[7];
    while (fgets(line, sizeof line, file)) {
        if (sscanf(line, "grant\t%7s\t%u\t%u", kind, &v[0], &v[1]) == 3) {
            struct range range = { v[0], v[1] + 1 };
            if (bay->readable.count == 6)
                fail("more than six grants");
            bay->readable.list[bay->readable.count++] = range;
            if (!strcmp(kind, "write"))
                bay->writable.list[bay->writable.count++] = range;
        } else if (sscanf(line, "registers\t%u\t%u\t%u\t%u\t%u\t%u\t%u",
                &v[0], &v[1], &v[2], &v[3], &v[4], &v[5], &v[6]) == 7) {
            struct registers r = {
                .a = (int32_t)v[0], .b = v[1], .x = (int16_t)v[2],
                .at = { 0, (uint16_t)v[6], (uint16_t)v[5], (uint16_t)v[3], (uint16_t)v[4] },
            };
            job->registers = r;
        } else if (sscanf(line, "input\t%u\t%u", &v[0], &v[1]) == 2) {
            job->input = v[0];
            job->halfwords_in = v[1];
        } else if (sscanf(line, "output\t%u\t%u", &v[0], &v[1]) == 2) {
            job->output = v[0];
            job->halfwords_out = v[1];
        } else if (sscanf(line, "turns\t%u\t%u", &v[0], &v[1]) == 2) {
            job->count = v[0];
            job->budget = v[1];
        }
    }
    fclose(file);
}

static void read_bytes(const char *path, uint8_t *bytes, size_t length)
{
    FILE *file = open_file(path);
    if (fread(bytes, 1, length, file) != length)
        fail(path);
    fclose(file);
}

int main(int count, char **arguments)
{
    static struct bay bay;
    static struct job job;
    if (count != 6)
        fail("plain BOOK IMAGE JOB RECORDS RUNS");
    read_book(arguments[1]);
    read_bytes(arguments[2], store, sizeof store);
    read_job(arguments[3], &job, &bay);
    if (job.input + 2 * job.halfwords_in > sizeof store || job.output + 2 * job.halfwords_out > sizeof store)
        fail("an area beyond the store");
    read_bytes(arguments[4], store + job.input, 2 * job.halfwords_in);
    long runs = atol(arguments[5]);

    unsigned long long steps = 0;
    struct timespec begin, end;
    clock_gettime(CLOCK_MONOTONIC, &begin);
    for (long run = 0; run < runs; run++) {
        bay.r = job.registers;
        bay.cause = 0;
        for (unsigned i = 0; i < job.count; i++)
            steps += turn(&bay, job.budget);
    }
    clock_gettime(CLOCK_MONOTONIC, &end);

    double microseconds = (double)(end.tv_sec - begin.tv_sec) * 1e6
        + (double)(end.tv_nsec - begin.tv_nsec) / 1e3;
    uint64_t checksum = 0;
    for (unsigned i = 0; i < 2 * job.halfwords_out; i++)
        checksum = checksum * 31 + store[job.output + i];
    const struct registers *r = &bay.r;
    printf("%llu %.0f %llu %u %u %u %u %u %u %u %d %d %d %d %d\n",
        steps, microseconds, (unsigned long long)checksum,
        (unsigned)r->a, r->b, (unsigned)(uint16_t)r->x, (unsigned)r->at[AT_Y], (unsigned)r->at[AT_Z],
        (unsigned)r->at[AT_S], (unsigned)r->at[AT_L], r->fm, r->n, r->zr, r->of, r->ca);
    return 0;
}

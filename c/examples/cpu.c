/* cpu.c - the processor: the instructions that standalone programs want, without packed and floating-point arithmetic. */
#include <string.h>

#include "s360.h"

enum { OPERATION = 1, PROTECTION = 4, ADDRESSING = 5, SPECIFICATION = 6, FIXED_DIVIDE = 9 };

uint32_t word_at(const uint8_t *p) { return (uint32_t)p[0] << 24 | (uint32_t)p[1] << 16 | (uint32_t)p[2] << 8 | p[3]; }

void put_word(uint8_t *p, uint32_t word) {
    p[0] = (uint8_t)(word >> 24);
    p[1] = (uint8_t)(word >> 16);
    p[2] = (uint8_t)(word >> 8);
    p[3] = (uint8_t)word;
}

/* --- The program status word --- */

int is_waiting(const machine *m) { return m->amwp >> 1 & 1; }

static void store_psw(const machine *m, uint32_t at) {
    uint8_t *p = m->storage + at;
    p[0] = m->mask; /* NOLINT(clang-analyzer-core.NullDereference): a machine has its storage */
    p[1] = (uint8_t)(m->key << 4 | m->amwp);
    p[2] = (uint8_t)(m->code >> 8);
    p[3] = (uint8_t)m->code;
    put_word(p + 4, (uint32_t)m->length / 2 << 30 | (uint32_t)m->cc << 28 | (uint32_t)m->program_mask << 24 | m->at);
}

void load_psw(machine *m, uint32_t at) {
    const uint8_t *p = m->storage + at;
    m->mask = p[0];
    m->key = p[1] >> 4;
    m->amwp = p[1] & 15;
    m->cc = p[4] >> 4 & 3;
    m->program_mask = p[4] & 15;
    m->at = word_at(p + 4) & 0xFFFFFF;
}

void interrupt(machine *m, uint16_t code, uint32_t old_psw, uint32_t new_psw) {
    m->code = code;
    store_psw(m, old_psw);
    load_psw(m, new_psw);
}

/* --- Storage. A fault ends the instruction, and becomes a program interruption --- */

static int fault;

static uint8_t *refused(int code) {
    fault = code;
    return NULL;
}

/* These bytes, to be read. */
static uint8_t *bytes(const machine *m, uint32_t at, uint32_t len) {
    return at <= m->size && len <= m->size - at ? m->storage + at : refused(ADDRESSING);
}

/* These bytes, to be written: the key of each of their blocks must be the program's, unless that is 0 (PoO, 'Storage Protection'). */
static uint8_t *written(machine *m, uint32_t at, uint32_t len) {
    uint8_t *p = bytes(m, at, len);
    for (uint32_t block = at / BLOCK; p && m->key && block <= (at + len - 1) / BLOCK; block++)
        if (storage_key_of(m, block * BLOCK) != m->key) return refused(PROTECTION);
    return p;
}

static uint8_t *aligned(const machine *m, uint32_t at, uint32_t len) { return at % len ? refused(SPECIFICATION) : bytes(m, at, len); }

static uint8_t *aligned_to_write(machine *m, uint32_t at, uint32_t len) { return at % len ? refused(SPECIFICATION) : written(m, at, len); }

/* The operand of 2 or 4 bytes, a halfword with its sign. */
static uint32_t operand(const machine *m, uint32_t at, uint32_t len) {
    const uint8_t *p = aligned(m, at, len);
    if (!p) return 0;
    return len == 4 ? word_at(p) : (uint32_t)(int32_t)(int16_t)(p[0] << 8 | p[1]);
}

static uint32_t base(const machine *m, const uint8_t *p) {
    unsigned b = p[0] >> 4;
    return ((b ? m->r[b] : 0) + ((uint32_t)(p[0] & 15) << 8 | p[1])) & 0xFFFFFF;
}

static uint32_t indexed(const machine *m, const uint8_t *i) {
    unsigned x = i[1] & 15;
    return (base(m, i + 2) + (x ? m->r[x] : 0)) & 0xFFFFFF;
}

/* --- Arithmetic and its condition codes --- */

static uint8_t sign(uint32_t n) { return n == 0 ? 0 : n >> 31 ? 1 : 2; }

/* A sum with its sign: code 3 where it is out of range. */
static uint32_t sum(machine *m, uint32_t a, uint32_t b) {
    uint32_t n = a + b;
    m->cc = (~(a ^ b) & (a ^ n)) >> 31 ? 3 : sign(n);
    return n;
}

static uint32_t difference(machine *m, uint32_t a, uint32_t b) {
    uint32_t n = a - b;
    m->cc = ((a ^ b) & (a ^ n)) >> 31 ? 3 : sign(n);
    return n;
}

/* A sum without a sign: codes 0 and 1 without a carry, 2 and 3 with one. */
static uint32_t logical_sum(machine *m, uint32_t a, uint32_t b, uint32_t carry) {
    uint64_t n = (uint64_t)a + b + carry;
    m->cc = (uint8_t)((n >> 32 ? 2 : 0) + ((uint32_t)n != 0));
    return (uint32_t)n;
}

static void compare(machine *m, uint32_t a, uint32_t b) { m->cc = a == b ? 0 : (int32_t)a < (int32_t)b ? 1 : 2; }

static void compare_logical(machine *m, uint32_t a, uint32_t b) { m->cc = a == b ? 0 : a < b ? 1 : 2; }

static uint32_t logical(machine *m, uint32_t n) {
    m->cc = n != 0;
    return n;
}

static void multiply(machine *m, unsigned r1, uint32_t b) {
    if (r1 % 2) fault = SPECIFICATION;
    if (fault) return;
    uint64_t n = (uint64_t)((int64_t)(int32_t)m->r[r1 + 1] * (int32_t)b);
    m->r[r1] = (uint32_t)(n >> 32);
    m->r[r1 + 1] = (uint32_t)n;
}

static void divide(machine *m, unsigned r1, uint32_t b) {
    if (r1 % 2) fault = SPECIFICATION;
    if (fault) return;
    int64_t a = (int64_t)((uint64_t)m->r[r1] << 32 | m->r[r1 + 1]), n = b && !(a == INT64_MIN && b == UINT32_MAX) ? a / (int32_t)b : INT64_MAX;
    if (n != (int32_t)n) {
        fault = FIXED_DIVIDE;
        return;
    }
    m->r[r1] = (uint32_t)(a % (int32_t)b);
    m->r[r1 + 1] = (uint32_t)n;
}

/* What RR and RX instructions of one operation do: the last four bits of the code are the same. */
static int arithmetic(machine *m, unsigned operation, unsigned r1, uint32_t b) {
    uint32_t *r = m->r + r1;
    switch (operation) {
    case 0x4: *r = logical(m, *r & b); return 1;
    case 0x5: compare_logical(m, *r, b); return 1;
    case 0x6: *r = logical(m, *r | b); return 1;
    case 0x7: *r = logical(m, *r ^ b); return 1;
    case 0x8: *r = b; return 1;
    case 0x9: compare(m, *r, b); return 1;
    case 0xA: *r = sum(m, *r, b); return 1;
    case 0xB: *r = difference(m, *r, b); return 1;
    case 0xC: multiply(m, r1, b); return 1;
    case 0xD: divide(m, r1, b); return 1;
    case 0xE: *r = logical_sum(m, *r, b, 0); return 1;
    case 0xF: *r = logical_sum(m, *r, ~b, 1); return 1;
    }
    return 0;
}

/* --- The five forms of instructions --- */

static int is_taken(const machine *m, unsigned mask) { return (int)(mask >> (3 - m->cc) & 1); }

static void link(machine *m, unsigned r) {
    m->r[r] = (uint32_t)m->length / 2 << 30 | (uint32_t)m->cc << 28 | (uint32_t)m->program_mask << 24 | m->at;
}

static void storage_key(machine *m, unsigned r1, unsigned r2, int sets) {
    uint32_t at = m->r[r2] & 0xFFFFFF;
    int32_t key = sets ? set_storage_key(m, at, m->r[r1] >> 4 & 15) : storage_key_of(m, at);
    if (key < 0) fault = ADDRESSING;
    else if (!sets) m->r[r1] = (m->r[r1] & ~0xFFu) | (uint32_t)key << 4;
}

static void rr(machine *m, const uint8_t *i) {
    unsigned r1 = i[1] >> 4, r2 = i[1] & 15;
    uint32_t b = m->r[r2], to = b & 0xFFFFFF;
    switch (i[0]) {
    case 0x04: /* SPM */
        m->cc = m->r[r1] >> 28 & 3;
        m->program_mask = m->r[r1] >> 24 & 15;
        return;
    case 0x05: /* BALR */
        link(m, r1);
        if (r2) m->at = to;
        return;
    case 0x06: /* BCTR */
        if (--m->r[r1] && r2) m->at = to;
        return;
    case 0x07: /* BCR */
        if (r2 && is_taken(m, r1)) m->at = to;
        return;
    case 0x08: storage_key(m, r1, r2, 1); return;                               /* SSK */
    case 0x09: storage_key(m, r1, r2, 0); return;                               /* ISK */
    case 0x0A: interrupt(m, i[1], SVC_OLD, SVC_NEW); return;                    /* SVC */
    case 0x10: m->r[r1] = b >> 31 ? difference(m, 0, b) : sum(m, 0, b); return; /* LPR */
    case 0x11: m->r[r1] = b >> 31 ? sum(m, 0, b) : difference(m, 0, b); return; /* LNR */
    case 0x12: m->r[r1] = sum(m, 0, b); return;                                 /* LTR */
    case 0x13: m->r[r1] = difference(m, 0, b); return;                          /* LCR */
    }
    if (i[0] < 0x14 || !arithmetic(m, i[0] & 15, r1, b)) fault = OPERATION;
}

/* CVB and CVD: seven or fifteen digits and a sign. */
static void convert_to_binary(machine *m, unsigned r1, uint32_t at) {
    const uint8_t *p = aligned(m, at, 8);
    uint64_t n = 0;
    if (!p) return;
    for (int digit = 0; digit < 15; digit++) n = n * 10 + (p[digit / 2] >> (digit % 2 ? 0 : 4) & 15);
    m->r[r1] = (p[7] & 15) == 0xD || (p[7] & 15) == 0xB ? 0 - (uint32_t)n : (uint32_t)n;
}

static void convert_to_decimal(machine *m, unsigned r1, uint32_t at) {
    uint8_t *p = aligned_to_write(m, at, 8);
    uint32_t n = m->r[r1] >> 31 ? 0 - m->r[r1] : m->r[r1];
    if (!p) return;
    memset(p, 0, 8);
    p[7] = m->r[r1] >> 31 ? 0xD : 0xC;
    for (int digit = 14; digit >= 0; digit--, n /= 10) p[digit / 2] |= (uint8_t)(n % 10 << (digit % 2 ? 0 : 4));
}

/* 48 to 4B with a halfword, 54 to 5F with a word. */
static void with_operand(machine *m, unsigned code, unsigned r1, uint32_t at) {
    int is_half = code >= 0x48 && code <= 0x4B;
    if (!is_half && code < 0x54) {
        fault = OPERATION;
        return;
    }
    uint32_t b = operand(m, at, is_half ? 2 : 4);
    if (!fault && !arithmetic(m, code & 15, r1, b)) fault = OPERATION;
}

static void execute(machine *m, unsigned r1, uint32_t at);

static void rx(machine *m, const uint8_t *i) {
    unsigned r1 = i[1] >> 4;
    uint32_t at = indexed(m, i);
    uint8_t *p;
    switch (i[0]) {
    case 0x40: /* STH */
        if ((p = aligned_to_write(m, at, 2)) != NULL) p[0] = (uint8_t)(m->r[r1] >> 8), p[1] = (uint8_t)m->r[r1];
        return;
    case 0x41: m->r[r1] = at; return; /* LA */
    case 0x42:                        /* STC */
        if ((p = written(m, at, 1)) != NULL) *p = (uint8_t)m->r[r1];
        return;
    case 0x43: /* IC */
        if ((p = bytes(m, at, 1)) != NULL) m->r[r1] = (m->r[r1] & ~0xFFu) | *p;
        return;
    case 0x44: execute(m, r1, at); return; /* EX */
    case 0x45:                             /* BAL */
        link(m, r1);
        m->at = at;
        return;
    case 0x46: /* BCT */
        if (--m->r[r1]) m->at = at;
        return;
    case 0x47: /* BC */
        if (is_taken(m, r1)) m->at = at;
        return;
    case 0x4C: /* MH */ m->r[r1] *= operand(m, at, 2); return;
    case 0x4E: convert_to_decimal(m, r1, at); return; /* CVD */
    case 0x4F: convert_to_binary(m, r1, at); return;  /* CVB */
    case 0x50:                                        /* ST */
        if ((p = aligned_to_write(m, at, 4)) != NULL) put_word(p, m->r[r1]);
        return;
    }
    with_operand(m, i[0], r1, at);
}

/* STM and LM go from one register to another, behind 15 on from 0. */
static void multiple(machine *m, const uint8_t *i, uint32_t at) {
    unsigned r1 = i[1] >> 4, count = ((i[1] & 15u) - r1) % 16 + 1;
    int loads = i[0] == 0x98;
    if (at % 4) fault = SPECIFICATION;
    uint8_t *p = fault ? NULL : loads ? bytes(m, at, 4 * count) : written(m, at, 4 * count);
    for (size_t n = 0; p && n < count; n++)
        if (loads) m->r[(r1 + n) % 16] = word_at(p + 4 * n);
        else put_word(p + 4 * n, m->r[(r1 + n) % 16]);
}

static void shift(machine *m, const uint8_t *i, unsigned by) {
    uint32_t *r = m->r + (i[1] >> 4), n = *r, lost = 0;
    switch (i[0]) {
    case 0x88: *r = by < 32 ? n >> by : 0; return; /* SRL */
    case 0x89: *r = by < 32 ? n << by : 0; return; /* SLL */
    case 0x8A:                                     /* SRA */
        *r = n >> 31 ? ~(by < 32 ? ~n >> by : 0) : by < 32 ? n >> by : 0;
        m->cc = sign(*r);
        return;
    case 0x8B: /* SLA: the sign stays, and code 3 says that a digit unlike it was lost */
        for (; by; by--) {
            lost |= (n ^ n << 1) >> 31;
            n = (n & 0x80000000) | (n << 1 & 0x7FFFFFFF);
        }
        *r = n;
        m->cc = lost ? 3 : sign(n);
        return;
    }
}

static void byte_instruction(machine *m, const uint8_t *i, uint32_t at) {
    uint8_t *p = i[0] == 0x91 || i[0] == 0x95 ? bytes(m, at, 1) : written(m, at, 1), both;
    if (!p) return;
    switch (i[0]) {
    case 0x91: /* TM: code 0, all zero; 3, all one; 1, mixed */
        both = *p & i[1];
        m->cc = both == 0 ? 0 : both == i[1] ? 3 : 1;
        return;
    case 0x92: *p = i[1]; return;                           /* MVI */
    case 0x94: *p = (uint8_t)logical(m, *p & i[1]); return; /* NI */
    case 0x95: compare_logical(m, *p, i[1]); return;        /* CLI */
    case 0x96: *p = (uint8_t)logical(m, *p | i[1]); return; /* OI */
    case 0x97: *p = (uint8_t)logical(m, *p ^ i[1]); return; /* XI */
    }
}

static void rs_si(machine *m, const uint8_t *i) {
    uint32_t at = base(m, i + 2);
    const uint8_t *p;
    switch (i[0]) {
    case 0x80: /* SSM */
        if ((p = bytes(m, at, 1)) != NULL) m->mask = *p;
        return;
    case 0x82: /* LPSW */
        if (aligned(m, at, 8)) load_psw(m, at);
        return;
    case 0x88:
    case 0x89:
    case 0x8A:
    case 0x8B: shift(m, i, at & 63); return;
    case 0x90:
    case 0x98: multiple(m, i, at); return; /* STM, LM */
    case 0x91:
    case 0x92:
    case 0x94:
    case 0x95:
    case 0x96:
    case 0x97: byte_instruction(m, i, at); return;
    case 0x9C: m->cc = (uint8_t)start_io(m, (uint16_t)at); return;
    case 0x9D: m->cc = (uint8_t)test_io(m, (uint16_t)at); return;
    case 0x9E: m->cc = (uint8_t)halt_io(m, (uint16_t)at); return;
    case 0x9F: m->cc = (uint8_t)test_channel(m, (uint16_t)at); return;
    }
    fault = OPERATION;
}

/* PACK and UNPK, from the right: digits are moved, and zeros fill what is left. */
static void pack(machine *m, const uint8_t *i, int packs) {
    unsigned one = (i[1] >> 4) + 1u, two = (i[1] & 15) + 1u;
    uint8_t *to = written(m, base(m, i + 2), one);
    const uint8_t *from = to ? bytes(m, base(m, i + 4), two) : NULL;
    uint8_t packed[16] = {0}, result[16];
    if (!from) return;
    memcpy(packed + 16 - two, from, two);
    for (unsigned n = 1; n < one; n++) {
        unsigned digit = 2 * n - 1; /* counted from the right, the sign's byte not */
        if (packs) result[n] = (uint8_t)((digit < 16 ? packed[15 - digit] & 15 : 0) | (digit + 1 < 16 ? (packed[14 - digit] & 15) << 4 : 0));
        else result[n] = (uint8_t)(0xF0 | (packed[15 - (n + 1) / 2] >> ((n + 1) % 2 ? 4 : 0) & 15));
    }
    result[0] = (uint8_t)(packed[15] << 4 | packed[15] >> 4);
    for (unsigned n = 0; n < one; n++) to[one - 1 - n] = result[n];
}

static void ss(machine *m, const uint8_t *i) {
    uint32_t len = i[1] + 1u;
    int is_compare = i[0] == 0xD5;
    if (i[0] == 0xF2 || i[0] == 0xF3) {
        pack(m, i, i[0] == 0xF2);
        return;
    }
    uint8_t *a = is_compare ? bytes(m, base(m, i + 2), len) : written(m, base(m, i + 2), len);
    const uint8_t *b = a ? bytes(m, base(m, i + 4), i[0] == 0xDC ? 256 : len) : NULL;
    unsigned any = 0;
    if (!b) return;
    if (is_compare) { /* CLC */
        int order = memcmp(a, b, len);
        m->cc = order == 0 ? 0 : order < 0 ? 1 : 2;
        return;
    }
    for (uint32_t n = 0; n < len; n++) { /* byte by byte, also where the operands overlap */
        switch (i[0]) {
        case 0xD1: a[n] = (uint8_t)((a[n] & 0xF0) | (b[n] & 0x0F)); break; /* MVN */
        case 0xD2: a[n] = b[n]; break;                                     /* MVC */
        case 0xD3: a[n] = (uint8_t)((a[n] & 0x0F) | (b[n] & 0xF0)); break; /* MVZ */
        case 0xD4: any |= a[n] &= b[n]; break;                             /* NC */
        case 0xD6: any |= a[n] |= b[n]; break;                             /* OC */
        case 0xD7: any |= a[n] ^= b[n]; break;                             /* XC */
        case 0xDC: a[n] = b[a[n]]; break;                                  /* TR */
        default: fault = OPERATION; return;
        }
    }
    if (i[0] == 0xD4 || i[0] == 0xD6 || i[0] == 0xD7) m->cc = any != 0;
}

/* --- An instruction --- */

static const uint8_t lengths[4] = {2, 4, 4, 6}; /* by the first two bits of the code */

static void perform(machine *m, const uint8_t *i) {
    static void (*const forms[4])(machine *, const uint8_t *) = {rr, rx, rs_si, ss};
    forms[i[0] >> 6](m, i);
}

/* EX: the instruction at an address, with its second byte changed by a register. */
static void execute(machine *m, unsigned r1, uint32_t at) {
    uint8_t subject[6] = {0};
    const uint8_t *p = at % 2 ? refused(SPECIFICATION) : bytes(m, at, 2);
    if (!p || (p = bytes(m, at, lengths[p[0] >> 6])) == NULL) return;
    memcpy(subject, p, lengths[p[0] >> 6]);
    if (r1) subject[1] |= (uint8_t)m->r[r1];
    if (subject[0] == 0x44) fault = OPERATION; /* EX of EX */
    else perform(m, subject);
}

void instruction(machine *m) {
    uint8_t i[6] = {0};
    const uint8_t *p = m->at % 2 ? refused(SPECIFICATION) : bytes(m, m->at, 2);
    m->length = 0;
    if (p && (p = bytes(m, m->at, lengths[p[0] >> 6])) != NULL) {
        m->length = lengths[p[0] >> 6];
        memcpy(i, p, m->length);
        m->at = (m->at + m->length) & 0xFFFFFF;
        perform(m, i);
    }
    if (fault) interrupt(m, (uint16_t)fault, PROGRAM_OLD, PROGRAM_NEW);
    fault = 0;
}

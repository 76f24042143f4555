/* Half of the mutations keep a plan's or a report's records in form, so that what comes after the reading of records is reached. */
#include <stddef.h>
#include <stdint.h>
#include <string.h>

#define RECORD 34
#define LINKS 5
#define NODES 8
#define FLOWS 17

struct flow {
    unsigned number, priority, period, jitter, deadline, length;
    unsigned nodes[NODES], costs[NODES];
};

struct plan {
    unsigned least, most;
    unsigned count;
    struct flow flows[FLOWS];
};

size_t LLVMFuzzerMutate(uint8_t *data, size_t size, size_t max);

static uint64_t state;

/* 0 to below - 1. */
static unsigned dice(unsigned below) {
    state = state * UINT64_C(6364136223846793005) + UINT64_C(1442695040888963407);
    return (unsigned)((state >> 33) % below);
}

/* Small numbers as often as great ones, up to 2^bits - 1. */
static unsigned any(unsigned bits) { return dice(1u << (1 + dice(bits))); }

static unsigned near(unsigned x) { return x + dice(5) - 2; }

static unsigned clamp(unsigned x, unsigned least, unsigned most) { return (int)x < (int)least ? least : x > most ? most : x; }

/* Reading and writing. */

static unsigned two(const uint8_t *at) { return at[0] * 256u + at[1]; }

static uint8_t *put(uint8_t *at, unsigned x) {
    *at = (uint8_t)x;
    return at + 1;
}

static uint8_t *put_two(uint8_t *at, unsigned x) { return put(put(at, x / 256), x % 256); }

static void read_flow(const uint8_t *body, struct flow *f) {
    *f = (struct flow){body[0], body[1], two(body + 2), two(body + 4), two(body + 6), body[8], {0}, {0}};
    for (int k = 0; k < NODES; k++) {
        f->nodes[k] = body[9 + k];
        f->costs[k] = two(body + 17 + 2 * k);
    }
}

/* Whatever the bytes are: records are taken as far as they go. */
static void read_plan(const uint8_t *data, size_t size, struct plan *p) {
    memset(p, 0, sizeof *p);
    if (size < LINKS) {
        return;
    }
    p->least = two(data + 1);
    p->most = two(data + 3);
    for (size_t at = LINKS; at + RECORD <= size && data[at] == 0x02 && p->count < FLOWS; at += RECORD) {
        read_flow(data + at + 1, &p->flows[p->count++]);
    }
}

static uint8_t *write_flow(uint8_t *at, const struct flow *f) {
    at = put(put(put(at, 0x02), f->number), f->priority);
    at = put_two(put_two(put_two(at, f->period), f->jitter), f->deadline);
    at = put(at, f->length);
    for (int k = 0; k < NODES; k++) {
        at = put(at, f->nodes[k]);
    }
    for (int k = 0; k < NODES; k++) {
        at = put_two(at, f->costs[k]);
    }
    return at;
}

static size_t write_plan(uint8_t *data, const struct plan *p) {
    uint8_t *at = put_two(put_two(put(data, 0x01), p->least), p->most);
    for (unsigned i = 0; i < p->count; i++) {
        at = write_flow(at, &p->flows[i]);
    }
    return (size_t)(put(at, 0x7F) - data);
}

/* Edits, which may leave a range. */

static void edit_path(struct flow *f, struct flow other) {
    unsigned a = dice(NODES), b = dice(NODES), node = f->nodes[a];
    switch (dice(6)) {
    case 0:
        f->length = near(f->length);
        break;
    case 1:
        f->nodes[a] = 1 + dice(9);
        break;
    case 2:
        f->nodes[a] = other.nodes[b];
        break;
    case 3:
        f->nodes[a] = f->nodes[b];
        f->nodes[b] = node;
        break;
    case 4:
        f->length = other.length;
        memcpy(f->nodes, other.nodes, sizeof f->nodes);
        break;
    default:
        f->length = other.length;
        for (unsigned k = 0; k < NODES; k++) {
            f->nodes[k] = k < other.length && other.length <= NODES ? other.nodes[other.length - 1 - k] : 0;
        }
    }
}

static void edit_cost(struct flow *f, struct flow other) {
    unsigned k = dice(NODES);
    switch (dice(3)) {
    case 0:
        f->costs[k] = dice(8) ? any(8) : 4095;
        break;
    case 1:
        f->costs[k] = near(f->costs[k]);
        break;
    default:
        f->costs[k] = other.costs[dice(NODES)];
    }
}

static void edit_number(unsigned *x, unsigned other, unsigned bits) {
    switch (dice(4)) {
    case 0:
        *x = any(bits);
        break;
    case 1:
        *x = near(*x);
        break;
    case 2:
        *x = other;
        break;
    default:
        *x = *x * (1 + dice(4)) / (1 + dice(4));
    }
}

static void edit_flow(struct flow *f, struct flow other) {
    switch (dice(8)) {
    case 0:
        edit_number(&f->number, other.number, 8);
        break;
    case 1:
        f->priority = dice(2) ? other.priority : dice(4);
        break;
    case 2:
        edit_number(&f->period, dice(4) ? other.period : 65535, 16);
        break;
    case 3:
        edit_number(&f->jitter, dice(4) ? other.jitter : 65535, 16);
        break;
    case 4:
        edit_number(&f->deadline, dice(2) ? 65535 : other.deadline, 16);
        break;
    case 5:
    case 6:
        edit_path(f, other);
        break;
    default:
        edit_cost(f, other);
    }
}

static void drop(struct plan *p, unsigned i) {
    p->count--;
    memmove(&p->flows[i], &p->flows[i + 1], (p->count - i) * sizeof p->flows[0]);
}

static void edit(struct plan *p) {
    unsigned kind = dice(16);
    if (kind == 0) {
        edit_number(&p->least, dice(4) ? p->most : 4095, 12);
    } else if (kind == 1) {
        edit_number(&p->most, dice(4) ? p->least : 4095, 12);
    } else if (kind == 2 && p->count < FLOWS) {
        p->flows[p->count] = p->flows[p->count == 0 ? 0 : dice(p->count)];
        p->count++;
    } else if (p->count == 0) {
        return;
    } else if (kind == 3) {
        drop(p, dice(p->count));
    } else {
        edit_flow(&p->flows[dice(p->count)], p->flows[dice(p->count)]);
    }
}

/* Back into the ranges of refusals 1 to 4, numbers rising. */

static int visited(const struct flow *f, unsigned upto, unsigned node) {
    for (unsigned k = 0; k < upto; k++) {
        if (f->nodes[k] == node) {
            return 1;
        }
    }
    return 0;
}

static void mend_flow(struct flow *f) {
    f->period = clamp(f->period, 1, 65535);
    f->jitter = clamp(f->jitter, 0, 65535);
    f->deadline = clamp(f->deadline, 1, 65535);
    f->length = clamp(f->length, 1, NODES);
    for (unsigned k = 0; k < NODES; k++) {
        while (k < f->length && (f->nodes[k] == 0 || visited(f, k, f->nodes[k]))) {
            f->nodes[k] = 1 + dice(12);
        }
        f->nodes[k] = k < f->length ? f->nodes[k] : 0;
        f->costs[k] = k < f->length ? clamp(f->costs[k], 1, 4095) : 0;
    }
}

static void mend(struct plan *p) {
    p->most = clamp(p->most, 0, 4095);
    p->least = clamp(p->least, 0, p->most);
    unsigned last = 0;
    for (unsigned i = 0; i < p->count; i++) {
        mend_flow(&p->flows[i]);
        if (p->flows[i].number <= last || p->flows[i].number > 255) {
            p->flows[i].number = last + 1;
        }
        last = p->flows[i].number;
        if (last == 255) {
            p->count = i + 1;
        }
    }
}

/* Reports. */

#define LINE 8

struct report {
    unsigned said, count;
    struct line {
        unsigned number, bound, jitter, busy;
    } lines[FLOWS];
};

/* Whatever the bytes are: lines are taken as far as they go. */
static void read_report(const uint8_t *data, size_t size, struct report *r) {
    memset(r, 0, sizeof *r);
    for (size_t at = 2; at + LINE <= size && data[at] == 0x11 && r->count < FLOWS; at += LINE) {
        r->lines[r->count++] = (struct line){data[at + 1], two(data + at + 2), two(data + at + 4), two(data + at + 6)};
    }
    r->said = size > 1 ? data[1] : 0;
}

static size_t write_report(uint8_t *data, const struct report *r) {
    uint8_t *at = put(put(data, 0x10), r->said);
    for (unsigned k = 0; k < r->count; k++) {
        const struct line *l = &r->lines[k];
        at = put_two(put_two(put_two(put(put(at, 0x11), l->number), l->bound), l->jitter), l->busy);
    }
    return (size_t)(put(at, 0x1F) - data);
}

static void edit_report(struct report *r) {
    if (r->count == 0 || (dice(4) == 0 && r->count < FLOWS)) {
        r->lines[r->count++] = (struct line){any(8), any(16), any(16), any(16)};
        return;
    }
    struct line *l = &r->lines[dice(r->count)];
    switch (dice(6)) {
    case 0: l->number = near(l->number); break;
    case 1: l->bound = any(16); break;
    case 2: l->jitter = near(l->bound); break;
    case 3: l->busy = any(16); break;
    case 4: r->count--; break;
    default: r->said = near(r->count); break;
    }
}

/* In order, but for numbers that find no room below 256. */
static void mend_report(struct report *r) {
    unsigned last = 0;
    for (unsigned k = 0; k < r->count; k++) {
        struct line *l = &r->lines[k];
        l->number = last = clamp(l->number, last + 1, 255);
        l->bound = clamp(l->bound, 1, 65535);
        l->jitter = clamp(l->jitter, 0, l->bound - 1);
        l->busy = clamp(l->busy, 1, 65535);
    }
    r->said = r->count;
}

static size_t mutate_report(uint8_t *data, size_t size) {
    struct report r;
    read_report(data, size, &r);
    for (unsigned edits = 1 + dice(4); edits > 0; edits--) {
        edit_report(&r);
    }
    if (dice(4)) {
        mend_report(&r);
    }
    return write_report(data, &r);
}

size_t LLVMFuzzerCustomMutator(uint8_t *data, size_t size, size_t max, unsigned seed) {
    state = seed;
    if (dice(2) || max < LINKS + FLOWS * RECORD + 1) {
        return LLVMFuzzerMutate(data, size, max);
    }
    if (size > 0 && data[0] == 0x10) {
        return mutate_report(data, size);
    }
    struct plan p;
    read_plan(data, size, &p);
    for (unsigned edits = 1 + dice(4); edits > 0; edits--) {
        edit(&p);
    }
    /* At times a number just out of its range is what is wanted. */
    if (dice(8)) {
        mend(&p);
    }
    return write_plan(data, &p);
}

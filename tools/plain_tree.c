/* Dual proofs of a history of headers and its hash tree (RFC 6962, section 2.1), made plainly of the stored digests of the
   tree's whole subtrees: what tools/bench-proofs times the program beside.

   plain_tree paths N COUNT    the proof from transaction COUNT + 1 to N + 1, where no transaction was linked before the last, whose tree
                               has the first N: its advance holds the paths of leaves 1 to COUNT
   plain_tree duals N          for each line `s t` of the standard input: the proof from s to t, where the tree of each transaction has
                               all before it

   A proof is written as the program writes it: the same members under the same names, digests in hex. It does the work of such a
   proof, which hashes the inner digests of the linear terms; what it proves is nothing, since the headers' digests are made up. The
   standard error gets the processor seconds that building and writing took. */
#include "sha256.h"
#include <stdio.h>
#include <stdlib.h>
#include <string.h>
#include <time.h>

static D leaf(const D *a) {
    uint8_t text[33] = {0};
    memcpy(text + 1, a->b, 32);
    return sha256(text, 33);
}

static D node(const D *l, const D *r) {
    uint8_t text[65] = {1};
    memcpy(text + 1, l->b, 32);
    memcpy(text + 33, r->b, 32);
    return sha256(text, 65);
}

static D *level[64];

static void build(size_t n) {
    level[0] = malloc(n * sizeof(D));
    for (size_t i = 0; i < n; i++) {
        uint8_t number[8];
        for (int k = 0; k < 8; k++) number[k] = (uint8_t)((uint64_t)i >> (56 - 8 * k));
        D alh = sha256(number, 8);
        level[0][i] = leaf(&alh);
    }
    for (int k = 1; n >> k; k++) {
        level[k] = malloc((n >> k) * sizeof(D));
        for (size_t j = 0; j < n >> k; j++) level[k][j] = node(&level[k - 1][2 * j], &level[k - 1][2 * j + 1]);
    }
}

/* The root over `width` leaves from leaf `at` on, where `at` is a multiple of a power of two that reaches `width`. */
static D root(size_t at, size_t width) {
    int k = 63 - __builtin_clzll(width);
    D left = level[k][at >> k];
    if (width == (size_t)1 << k) return left;
    D right = root(at + ((size_t)1 << k), width - ((size_t)1 << k));
    return node(&left, &right);
}

/* The terms from the root down: of the path of leaf i, from 0, or of the list from i + 1 leaves with its first term. */
static int down(size_t n, size_t i, int list, D *terms) {
    size_t at = 0, width = n;
    int count = 0;
    while (list ? i < width - 1 : width > 1) {
        size_t k = (size_t)1 << (63 - __builtin_clzll(width - 1));
        if (i < k) {
            terms[count++] = root(at + k, width - k);
            width = k;
        } else {
            terms[count++] = root(at, k);
            at += k;
            width -= k;
            i -= k;
        }
    }
    if (list) terms[count++] = root(at, width);
    return count;
}

typedef struct { uint64_t id, bl_tx_id, ts; D bl_root, prev_alh, eh; uint32_t nentries; } Header;

static Header *headers;

/* The headers of transactions 1 to n. */
static void head(size_t n, int linked) {
    headers = calloc(n + 1, sizeof(Header));
    for (size_t k = 1; k <= n; k++) {
        Header *h = &headers[k];
        h->id = k, h->ts = 1700000000 + k, h->nentries = 1, h->bl_tx_id = linked ? k - 1 : 0;
        h->bl_root = h->eh = h->prev_alh = level[0][k - 1 ? k - 2 : 0];
    }
}

static uint8_t *big_endian(uint8_t *to, uint64_t x, int octets) {
    for (int i = octets; i-- > 0; x >>= 8) to[i] = (uint8_t)x;
    return to + octets;
}

static D inner(const Header *h) {
    uint8_t text[88], *to = big_endian(text, h->ts, 8);
    to = big_endian(to, 1, 2);
    to = big_endian(to, 0, 2);
    to = big_endian(to, h->nentries, 4);
    memcpy(to, h->eh.b, 32);
    to = big_endian(to + 32, h->bl_tx_id, 8);
    memcpy(to, h->bl_root.b, 32);
    return sha256(text, 88);
}

/* The line that is made, which no proof is too long for. */
static char *text, *to;

static void put(const char *s) {
    size_t n = strlen(s);
    memcpy(to, s, n);
    to += n;
}

static void put_digest(const D *d) {
    static const char digits[] = "0123456789abcdef";
    *to++ = '"';
    for (int k = 0; k < 32; k++) {
        *to++ = digits[d->b[k] >> 4];
        *to++ = digits[d->b[k] & 15];
    }
    *to++ = '"';
}

static void put_number(uint64_t x) {
    char digits[20];
    int n = 0;
    do digits[n++] = (char)('0' + x % 10);
    while (x /= 10);
    while (n > 0) *to++ = digits[--n];
}

/* A list, its last term first. */
static void put_list(const D *terms, int count) {
    put("[");
    while (count-- > 0) {
        put_digest(&terms[count]);
        if (count) put(",");
    }
    put("]");
}

static void put_down(size_t n, size_t i, int list) {
    D terms[130];
    put_list(terms, down(n, i, list, terms));
}

static void put_header(const Header *h) {
    put("{\"blRoot\":"), put_digest(&h->bl_root);
    put(",\"blTxId\":"), put_number(h->bl_tx_id);
    put(",\"eh\":"), put_digest(&h->eh);
    put(",\"id\":"), put_number(h->id);
    put(",\"md\":\"\",\"nentries\":"), put_number(h->nentries);
    put(",\"prevAlh\":"), put_digest(&h->prev_alh);
    put(",\"ts\":"), put_number(h->ts);
    put(",\"version\":1}");
}

/* The terms from transaction s to t: the Alh of s, and the inner digests of those behind it. */
static void put_linear(size_t s, size_t t) {
    put("["), put_digest(&headers[s].prev_alh);
    for (size_t k = s + 1; k <= t; k++) {
        D d = inner(&headers[k]);
        put(","), put_digest(&d);
    }
    put("]");
}

static void put_advance(size_t a, size_t e, size_t size) {
    int due = e > a + 1;
    put("{\"inclusions\":[");
    for (size_t i = a; due && i + 1 < e; i++) {
        if (i > a) put(",");
        put_down(size, i, 0);
    }
    put("],\"terms\":");
    if (due) put_linear(a + 1, e);
    else put("[]");
    put("}");
}

static void show(size_t s, size_t t) {
    size_t size = headers[t].bl_tx_id, old = headers[s].bl_tx_id;
    to = text;
    put("a "), put_number(t), put(" {\"dual\":{\"consistency\":");
    if (old && old < size) put_down(size, old - 1, 1);
    else put("[]");
    put(",\"inclusion\":");
    if (s < size) put_down(size, s - 1, 0);
    else put("[]");
    put(",\"lastInclusion\":");
    if (size) put_down(size, size - 1, 0);
    else put("[]");
    put(",\"linear\":"), put_linear(s > size ? s : size, t);
    put(",\"linearAdvance\":"), put_advance(old, s < size ? s : size, size);
    put(",\"source\":"), put_header(&headers[s]);
    put(",\"target\":"), put_header(&headers[t]);
    put(",\"targetBlTxAlh\":"), put_digest(&headers[t].prev_alh);
    put("},\"type\":\"dual\"}\n");
    fwrite(text, 1, (size_t)(to - text), stdout);
}

static double now(void) {
    struct timespec t;
    clock_gettime(CLOCK_PROCESS_CPUTIME_ID, &t);
    return (double)t.tv_sec + (double)t.tv_nsec / 1e9;
}

int main(int argc, char **argv) {
    if (argc < 3) return 2;
    size_t n = strtoull(argv[2], 0, 10), count = argc > 3 ? strtoull(argv[3], 0, 10) : 0, s, t;
    double began = now();
    build(n);
    head(n + 1, !count);
    if (count) headers[n + 1].bl_tx_id = n;
    text = malloc(65536 + count * 65 * 67);
    double built = now();
    if (count) show(count + 1, n + 1);
    else
        while (scanf("%zu %zu", &s, &t) == 2) show(s, t);
    fflush(stdout);
    fprintf(stderr, "%.6f %.6f\n", built - began, now() - built);
    return 0;
}

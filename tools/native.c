/* The calls of the archive over the functions of its module as `tools/native` compiles them: records by pointer, a slice as a pointer to its octets and
 * their number. */
#include "strundevi.h"

typedef struct { const uint8_t *p; size_t n; } slice;

void n_read_open(strundevi_opened *, const strundevi_setup *, const slice *);
void n_agree(strundevi_session *, const strundevi_opened *, const strundevi_opened *);
void n_judge(strundevi_verdict *, const slice *, uint8_t, const strundevi_session *, uint64_t, const slice *);
void n_segment_at(strundevi_picked *, const slice *, uint8_t, const strundevi_session *, uint64_t, const slice *, uint64_t);
void n_step(strundevi_stepped *, const slice *, uint8_t, uint64_t, size_t);
void n_begin(strundevi_written *, const slice *, const strundevi_writer *, uint8_t, uint64_t);
void n_add(strundevi_written *, const slice *, const strundevi_writer *, const strundevi_outline *, const uint8_t *, const uint8_t *, const uint8_t *);
void n_finish(strundevi_written *, const slice *, const strundevi_writer *);
void n_empty(uint32_t *, uint64_t *, uint16_t *, uint64_t *, uint64_t *, uint8_t *, uint64_t *, uint8_t *);
void n_report(strundevi_verdict *, uint32_t *, uint64_t *, uint16_t *, uint64_t *, uint64_t *, uint8_t *, uint64_t *, uint8_t *, const slice *,
              uint64_t, const slice *, const strundevi_session *, uint64_t, const slice *);
void n_remove(strundevi_verdict *, const uint32_t *, uint64_t *, uint16_t *, uint64_t *, uint64_t, uint8_t *, uint64_t *, uint8_t *, const slice *,
              uint64_t);
void n_compact(strundevi_verdict *, uint32_t *, uint64_t *, const uint16_t *, uint64_t, uint64_t *, uint8_t *, uint64_t *, const uint8_t *,
               const slice *, uint64_t);
void n_body(strundevi_part *, const uint32_t *, const uint64_t *, const uint16_t *, uint64_t, uint64_t, const uint8_t *, const uint64_t *,
            const uint8_t *, const slice *, uint64_t);
void n_next(strundevi_change *, const uint32_t *, const uint64_t *, const uint16_t *, uint64_t, uint64_t, const uint8_t *, const uint64_t *,
            const uint8_t *, const slice *, uint64_t, uint64_t);
void n_moved(strundevi_verdict *, const uint32_t *, const uint64_t *, const uint16_t *, uint64_t, uint64_t, const uint8_t *, const uint64_t *,
             const uint8_t *, const slice *, uint64_t, uint64_t, uint64_t);
void n_fresh_mark(strundevi_mark *, uint64_t);

strundevi_opened strundevi_raw_read_open(strundevi_setup setup, const uint8_t *p, size_t n) {
    strundevi_opened r;
    slice s = {p, n};
    n_read_open(&r, &setup, &s);
    return r;
}

strundevi_session strundevi_raw_agree(strundevi_opened a, strundevi_opened b) {
    strundevi_session r;
    n_agree(&r, &a, &b);
    return r;
}

strundevi_verdict strundevi_raw_judge(const uint8_t *p, size_t n, uint8_t ero, strundevi_session x, uint64_t pst, const uint8_t *a, size_t g) {
    strundevi_verdict r;
    slice s = {p, n}, t = {a, g};
    n_judge(&r, &s, ero, &x, pst, &t);
    return r;
}

strundevi_picked strundevi_raw_segment_at(const uint8_t *p, size_t n, uint8_t ero, strundevi_session x, uint64_t pst, const uint8_t *a, size_t g,
                                          uint64_t i) {
    strundevi_picked r;
    slice s = {p, n}, t = {a, g};
    n_segment_at(&r, &s, ero, &x, pst, &t, i);
    return r;
}

strundevi_stepped strundevi_raw_step(const uint8_t *p, size_t n, uint8_t ero, uint64_t pst, size_t at) {
    strundevi_stepped r;
    slice s = {p, n};
    n_step(&r, &s, ero, pst, at);
    return r;
}

strundevi_written strundevi_raw_begin(uint8_t *p, size_t n, strundevi_writer w, uint8_t ero, uint64_t pst) {
    strundevi_written r;
    slice s = {p, n};
    n_begin(&r, &s, &w, ero, pst);
    return r;
}

strundevi_written strundevi_raw_add(uint8_t *p, size_t n, strundevi_writer w, strundevi_outline o, const uint8_t *sid, const uint8_t *nai,
                                    const uint8_t *st) {
    strundevi_written r;
    slice s = {p, n};
    n_add(&r, &s, &w, &o, sid, nai, st);
    return r;
}

strundevi_written strundevi_raw_finish(uint8_t *p, size_t n, strundevi_writer w) {
    strundevi_written r;
    slice s = {p, n};
    n_finish(&r, &s, &w);
    return r;
}

void strundevi_raw_empty(uint32_t *k, uint64_t *v, uint16_t *l, uint64_t *version, uint64_t *floor, uint8_t *o, uint64_t *t, uint8_t *f) {
    n_empty(k, v, l, version, floor, o, t, f);
}

strundevi_verdict strundevi_raw_report(uint32_t *k, uint64_t *v, uint16_t *l, uint64_t *version, uint64_t *floor, uint8_t *o, uint64_t *t, uint8_t *f,
                                       uint8_t *p, size_t n, uint64_t key, const uint8_t *e, size_t en, strundevi_session x, uint64_t pst,
                                       const uint8_t *a, size_t g) {
    strundevi_verdict r;
    slice s = {p, n}, q = {e, en}, u = {a, g};
    n_report(&r, k, v, l, version, floor, o, t, f, &s, key, &q, &x, pst, &u);
    return r;
}

strundevi_verdict strundevi_raw_remove(const uint32_t *k, uint64_t *v, uint16_t *l, uint64_t *version, uint64_t floor, uint8_t *o, uint64_t *t, uint8_t *f,
                                       const uint8_t *p, size_t n, uint64_t key) {
    strundevi_verdict r;
    slice s = {p, n};
    n_remove(&r, k, v, l, version, floor, o, t, f, &s, key);
    return r;
}

strundevi_verdict strundevi_raw_compact(uint32_t *k, uint64_t *v, const uint16_t *l, uint64_t version, uint64_t *floor, uint8_t *o, uint64_t *t,
                                        const uint8_t *f, const uint8_t *p, size_t n, uint64_t c) {
    strundevi_verdict r;
    slice s = {p, n};
    n_compact(&r, k, v, l, version, floor, o, t, f, &s, c);
    return r;
}

strundevi_part strundevi_raw_body(const uint32_t *k, const uint64_t *v, const uint16_t *l, uint64_t version, uint64_t floor, const uint8_t *o,
                                  const uint64_t *t, const uint8_t *f, const uint8_t *p, size_t n, uint64_t key) {
    strundevi_part r;
    slice s = {p, n};
    n_body(&r, k, v, l, version, floor, o, t, f, &s, key);
    return r;
}

strundevi_change strundevi_raw_next(const uint32_t *k, const uint64_t *v, const uint16_t *l, uint64_t version, uint64_t floor, const uint8_t *o,
                                    const uint64_t *t, const uint8_t *f, const uint8_t *p, size_t n, uint64_t a, uint64_t w) {
    strundevi_change r;
    slice s = {p, n};
    n_next(&r, k, v, l, version, floor, o, t, f, &s, a, w);
    return r;
}

strundevi_verdict strundevi_raw_moved(const uint32_t *k, const uint64_t *v, const uint16_t *l, uint64_t version, uint64_t floor, const uint8_t *o,
                                      const uint64_t *t, const uint8_t *f, const uint8_t *p, size_t n, uint64_t a, uint64_t b, uint64_t x) {
    strundevi_verdict r;
    slice s = {p, n};
    n_moved(&r, k, v, l, version, floor, o, t, f, &s, a, b, x);
    return r;
}

strundevi_mark strundevi_raw_fresh_mark(uint64_t version) {
    strundevi_mark r;
    n_fresh_mark(&r, version);
    return r;
}

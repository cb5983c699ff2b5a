/* The finder's list in plain C, for comparison: the same cutting, tables, counting rule and replies (document 01).
   Nothing is checked but what a refusal asks for. */
#include <stddef.h>
#include <stdint.h>
#include <string.h>

struct search {
    const uint8_t *text;
    uint16_t *work, *report;
    size_t room;
    uint32_t blocks, comparisons;
};

static inline size_t min(size_t a, size_t b) { return a < b ? a : b; }

/* Fills one table and gives its comparisons. A piece is read from its first byte on (step 1), or from its last back (step -1);
   `own` is the pattern's own table, which may be the one that is filled. */
static inline uint32_t fill(const uint8_t *pattern, size_t pattern_n, const uint8_t *walked, size_t walked_n, ptrdiff_t step,
                            size_t first, const uint16_t *own, uint16_t *table)
{
    size_t k = 0, e = 0;
    uint32_t cost = 0;
    for (size_t i = first; i < walked_n; i++) {
        size_t j = 0;
        if (e > i) {
            size_t own_length = own[i - k];
            if (own_length < e - i) {
                table[i] = (uint16_t)own_length;
                continue;
            }
            j = e - i;
        }
        size_t most = min(walked_n - i, pattern_n);
        while (j < most) {
            cost++;
            if (walked[step * (ptrdiff_t)(i + j)] != pattern[step * (ptrdiff_t)j])
                break;
            j++;
        }
        table[i] = (uint16_t)j;
        k = i;
        e = i + j;
    }
    return cost;
}

static inline void put(struct search *s, size_t half, size_t first, size_t last)
{
    if (s->blocks < s->room) {
        uint16_t *at = s->report + 3 * (size_t)s->blocks;
        at[0] = (uint16_t)half;
        at[1] = (uint16_t)first;
        at[2] = (uint16_t)last;
    }
    s->blocks++;
}

static void find(struct search *s, size_t a, size_t b)
{
    if (b - a < 2)
        return;
    size_t c = a + (b - a + 1) / 2;
    size_t un = c - a, vn = b - c;
    const uint8_t *u = s->text + a, *v = s->text + c, *u_last = v - 1, *v_last = v + vn - 1;
    uint16_t *v_itself = s->work, *u_itself = v_itself + vn, *v_against_u = u_itself + un, *u_against_v = v_against_u + vn;
    s->comparisons += fill(v, vn, v, vn, 1, 1, v_itself, v_itself);
    s->comparisons += fill(u_last, un, u_last, un, -1, 1, u_itself, u_itself);
    s->comparisons += fill(u_last, un, v_last, vn, -1, 0, u_itself, v_against_u);
    s->comparisons += fill(v, vn, u, un, 1, 0, v_itself, u_against_v);
    for (size_t p = 1; p <= vn; p++) {
        size_t back = v_against_u[vn - p];
        size_t on = p < vn ? min(p - 1, v_itself[p]) : 0;
        if (p <= back + on)
            put(s, p, c - back, c + on - p);
    }
    for (size_t p = 1; p < un; p++) {
        size_t back = min(p - 1, u_itself[p]);
        size_t on = min(p - 1, u_against_v[un - p]);
        if (p <= back + on)
            put(s, p, c - p - back, c + on - 2 * p);
    }
    find(s, a, c);
    find(s, c, b);
}

uint32_t plain_list(const uint8_t *text, size_t text_len, uint16_t *work, size_t work_len, uint16_t *report, size_t report_len,
                    uint32_t *answer, size_t answer_len)
{
    if (answer_len < 2)
        return 99;
    if (text_len > 16384)
        return 1;
    if (work_len < 2 * text_len)
        return 2;
    struct search s = {text, work, report, report_len / 3, 0, 0};
    find(&s, 0, text_len);
    memset(work, 0, 2 * text_len * sizeof *work);
    answer[0] = s.blocks;
    answer[1] = s.comparisons;
    return s.blocks <= s.room ? 0 : 3;
}

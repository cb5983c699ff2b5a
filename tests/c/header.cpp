// Calls every function of porthwynna.h from C++, on document 01's "aaaa"; the header is taken in twice, as may happen.
#include <porthwynna.h>
#include <porthwynna.h>

#include <cstdio>

int main()
{
    const uint8_t text[] = {'a', 'a', 'a', 'a'};
    const size_t n = sizeof text;
    uint16_t work[2 * n];
    uint16_t report[12];
    uint32_t totals[PORTHWYNNA_LIST_ANSWER], longest[PORTHWYNNA_LONGEST_ANSWER], stands, is_free, room;
    const bool done =
        porthwynna_list(text, n, work, 2 * n, report, 12, totals, PORTHWYNNA_LIST_ANSWER) == PORTHWYNNA_DONE &&
        porthwynna_stands(text, n, 0, 2, &stands, PORTHWYNNA_STANDS_ANSWER) == PORTHWYNNA_DONE &&
        porthwynna_is_free(text, n, work, 2 * n, &is_free, PORTHWYNNA_IS_FREE_ANSWER) == PORTHWYNNA_DONE &&
        porthwynna_longest(text, n, work, 2 * n, longest, PORTHWYNNA_LONGEST_ANSWER) == PORTHWYNNA_DONE &&
        porthwynna_room(n, &room, PORTHWYNNA_ROOM_ANSWER) == PORTHWYNNA_DONE;
    const bool right = done && totals[0] == 4 && totals[1] == 10 && report[0] == 1 && report[11] == 2 && stands == 1 &&
                       is_free == 0 && longest[0] == 0 && longest[1] == 2 && room == 8 &&
                       porthwynna_version() == PORTHWYNNA_VERSION && porthwynna_reply_text(PORTHWYNNA_DONE) != nullptr;
    std::printf("1 tried, %d wrong\n", right ? 0 : 1);
    return right ? 0 : 1;
}

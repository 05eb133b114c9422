/*
 * Feeds seven answers to a window, three of which are refused, and asks for its counts.
 * From the repository's root: cc tests/examples/c/window.c target/staticlib/libvoltunnis.a -o window
 */
#include <stdio.h>

#include "../../../include/voltunnis.h"

/* A word and a rule each. */
static const uint8_t answers[][2] = {{VT_COMMIT, 1},   {VT_COMMIT, 2},   {VT_SUSPEND, 0}, {VT_FAIL, 0},
                                     {VT_COMMIT, 65},  {VT_EXECUTE, 65}, {VT_SUSPEND, 64}};

int main(void)
{
    uint16_t window[VT_WINDOW];
    uint64_t words;
    unsigned i, refused = 0;
    vt_window_fresh(window);
    for (i = 0; i < sizeof answers / sizeof answers[0]; i++)
        refused += vt_refusal(vt_window_feed(window, answers[i][0], answers[i][1])) == 36;
    words = vt_window_words(window);
    printf("commit %u execute %u suspend %u fail %u\n", (unsigned)(words & 0xffff), (unsigned)(words >> 16 & 0xffff),
           (unsigned)(words >> 32 & 0xffff), (unsigned)(words >> 48));
    printf("rule 1 %u rule 65 %u refused %u\n", (unsigned)vt_window_commits(window, 1),
           (unsigned)vt_window_commits(window, 65), refused);
    return 0;
}

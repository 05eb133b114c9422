/*
 * Walks the four pieces of document 01's example over its graph, two at a time.
 * From the repository's root: cc tests/examples/c/walk_all.c target/staticlib/libvoltunnis.a -o walk_all
 */
#include <stdio.h>

#include "../../../include/voltunnis.h"

/* f(X, X) and f(1, 2), in symbols. */
static const uint8_t sheet[] = {0x10, 2, 2, 0x24, 0, 0x24, 0, 0x21, 0, 1, 0x21, 0, 2};

/* (1, 2), (?, 1), (?, ?), (3, 4), one after another. */
static const uint8_t pieces[] = {0x11, 2, 0x31, 0, 1, 0x31, 0, 2, 0x11, 2, 0x30, 0x31, 0, 1,
                                 0x11, 2, 0x30, 0x30, 0x11, 2, 0x31, 0, 3, 0x31, 0, 4};

static const char *const words[] = {"", "commit", "execute", "suspend", "fail"};

static void print(const uint8_t result[VT_RESULT])
{
    unsigned i;
    if (result[0] != 0) {
        printf("refused %u\n", result[0]);
        return;
    }
    printf("%s %u %u ", words[result[1]], result[2], result[3]);
    for (i = 8; i < VT_RESULT; i++)
        printf("%02x", result[i]);
    printf("\n");
}

int main(void)
{
    uint8_t graph[100], results[2 * VT_RESULT];
    size_t at = 0, i, count;
    uint64_t built = vt_build(sheet, sizeof sheet, graph, sizeof graph);
    do {
        uint64_t run = vt_walk_all(sheet, sizeof sheet, graph, (size_t)(built >> 24), pieces + at, sizeof pieces - at,
                                   results, sizeof results);
        if (vt_refusal(run) != 0)
            return 1;
        count = (size_t)(run >> 8 & 0xffffff);
        for (i = 0; i < count; i++)
            print(results + i * VT_RESULT);
        printf("%u results, %u bytes\n", (unsigned)count, (unsigned)(run >> 32));
        at += (size_t)(run >> 32);
    } while (count == 2);
    return 0;
}

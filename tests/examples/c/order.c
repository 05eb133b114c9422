/*
 * Builds document 01's example in the reading order of a track drawing: argument 2 is read at 120, all else at 900.
 * From the repository's root: cc tests/examples/c/order.c target/staticlib/libvoltunnis.a -o order
 */
#include <stdio.h>

#include "../../../include/voltunnis.h"

/* f(X, X) and f(1, 2), in symbols. */
static const uint8_t sheet[] = {0x10, 2, 2, 0x24, 0, 0x24, 0, 0x21, 0, 1, 0x21, 0, 2};

int main(void)
{
    uint8_t positions[VT_ORDER], table[VT_ORDER], graph[100];
    uint64_t written, built;
    unsigned place;
    for (place = 0; place < 680; place++) {
        unsigned at = place / 85 == 1 ? 120 : 900;
        positions[2 * place] = (uint8_t)(at >> 8);
        positions[2 * place + 1] = (uint8_t)at;
    }
    written = vt_order(positions, sizeof positions, table, sizeof table);
    printf("%u bytes, place %u first\n", (unsigned)(written >> 8), table[0] << 8 | table[1]);
    printf("table %u\n", vt_refusal(vt_check_order(table, sizeof table)));
    built = vt_build_ordered(sheet, sizeof sheet, table, sizeof table, graph, sizeof graph);
    printf("%u nodes, place %u asked first\n", (unsigned)(built >> 8 & 0xffff), graph[6] << 8 | graph[7]);
    printf("refused %u and %u\n", vt_refusal(vt_order(positions, 1359, table, 1359)),
           vt_refusal(vt_order(positions, sizeof positions, table, 1359)));
    return 0;
}

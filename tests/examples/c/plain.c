/*
 * Asks for the plain answers of document 01's example.
 * From the repository's root: cc tests/examples/c/plain.c target/staticlib/libvoltunnis.a -o plain
 */
#include <stdio.h>

#include "../../../include/voltunnis.h"

/* f(X, X) and f(1, 2), in symbols. */
static const uint8_t sheet[] = {0x10, 2, 2, 0x24, 0, 0x24, 0, 0x21, 0, 1, 0x21, 0, 2};

static const char *const words[] = {"", "commit", "execute", "suspend", "fail"};

static void ask(const uint8_t *piece, size_t piece_len)
{
    uint64_t result = vt_plain(sheet, sizeof sheet, piece, piece_len);
    if (vt_refusal(result) != 0)
        printf("refused %u\n", vt_refusal(result));
    else
        printf("%s %u\n", words[result >> 8 & 0xff], (unsigned)(result >> 16 & 0xff));
}

int main(void)
{
    static const uint8_t both[] = {0x11, 2, 0x31, 0, 1, 0x31, 0, 2};
    static const uint8_t second[] = {0x11, 2, 0x30, 0x31, 0, 1};
    static const uint8_t neither[] = {0x11, 2, 0x30, 0x30};
    static const uint8_t other[] = {0x11, 2, 0x31, 0, 3, 0x31, 0, 4};
    ask(both, sizeof both);
    ask(second, sizeof second);
    ask(neither, sizeof neither);
    ask(other, sizeof other);
    return 0;
}

/* The check program in C, over the exported call: four parts on standard input, each a length of four bytes, little-endian, and its bytes.
   gcc include/example.c target/staticlib/libmenqachu.a */
#include "menqachu.h"
#include <stdio.h>

enum { STREAM_ROOM = 32769, POOL_ROOM = 16385, TEXT_ROOM = 65536 };

/* Reads a part into a buffer that has a byte more than the part may: a cut length counts as 0, a part that ends early as the bytes that came, and
   one stated longer than the limit as a part that is one byte too long. */
static size_t read_part(uint8_t *buffer, size_t room) {
    uint8_t head[4];
    if (fread(head, 1, 4, stdin) < 4)
        return 0;
    size_t length = head[0] | (size_t)head[1] << 8 | (size_t)head[2] << 16 | (size_t)head[3] << 24;
    if (length >= room)
        return room;
    return fread(buffer, 1, length, stdin);
}

int main(void) {
    static uint8_t stream[STREAM_ROOM], pool[POOL_ROOM], past[STREAM_ROOM], old[POOL_ROOM], out[TEXT_ROOM];
    size_t stream_len = read_part(stream, sizeof stream), pool_len = read_part(pool, sizeof pool);
    size_t past_len = read_part(past, sizeof past), old_len = read_part(old, sizeof old);
    menqachu_answer a = menqachu_check(stream, stream_len, pool, pool_len, past, past_len, old, old_len, out, sizeof out);
    if (a.number == 0)
        puts("0");
    else if (a.number <= 10)
        printf("%u %u %zu\n", a.number, a.side, a.place);
    else {
        printf("%u ", a.number);
        fwrite(out, 1, a.len, stdout);
        puts("");
    }
    return 0;
}

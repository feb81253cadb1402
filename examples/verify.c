/*
 * A present key, an absent key and a forged proof, by the C library.
 *
 *     cc -I../include verify.c ../crates/mst_verifier/out/libmst_verifier.a -o verify
 */
#include "mst_verifier.h"

#include <stdio.h>
#include <string.h>

/* The root digest of the map of "a" and "abc", with the values "1" and "x". */
static const uint8_t root[32] = {
    0xd4, 0xa8, 0xa9, 0xfc, 0x55, 0x05, 0x84, 0x27, 0x16, 0x3b, 0xd8, 0xa1,
    0xf0, 0x9c, 0xa5, 0xec, 0x54, 0x2d, 0xe1, 0xcd, 0xaf, 0x28, 0xdf, 0x10,
    0x0b, 0xe5, 0x47, 0x2e, 0x47, 0xb7, 0x25, 0x03,
};

/* That map's proof, which is the same for each key: its one node has both entries. */
static const uint8_t proof[23] = {
    0x01, 0x01, 0x00, 0x00, 0x00, 0x11, 0x01, 0x00, 0x00, 0x02, 0x00, 0x01,
    0x61, 0x01, 0x31, 0x00, 0x03, 0x61, 0x62, 0x63, 0x01, 0x78, 0x00,
};

static void tell(const char *key, const uint8_t *bytes, size_t length)
{
    uint8_t value[MST_VALUE_ROOM];
    int32_t told = mst_verify(1, root, sizeof root, (const uint8_t *)key, strlen(key), bytes,
                              length, value, sizeof value);
    if (told >= 0)
        printf("present %.*s\n", (int)told, (const char *)value);
    else if (told == MST_ABSENT)
        puts("absent");
    else
        printf("refused %d\n", (int)told);
}

int main(void)
{
    uint8_t forged[sizeof proof];
    memcpy(forged, proof, sizeof proof);
    forged[14] = '2'; /* the value of "a" */
    tell("a", proof, sizeof proof);
    tell("b", proof, sizeof proof);
    tell("a", forged, sizeof forged);
    return 0;
}

/*
 * Checks each line of vectors by the C library: in full room, in just enough, and in less. With the
 * word `sharded` the proofs are of sharded maps. The call for the other kind of proof has to refuse
 * each by its first byte.
 */
#include "vectors.h"

static int is_sharded;

/* What the call for the other kind has to tell: 0 if the first byte is that of its kind. */
static int32_t told_by_other(const struct vector *it)
{
    uint8_t version = (uint8_t)(it->format + (is_sharded ? 0 : 2));
    if (it->proof_length == 0)
        return is_sharded ? MST_P2_CUT_SHORT : MST_S2_CUT_SHORT;
    if (it->proof[0] == version)
        return 0;
    return is_sharded ? MST_P1_FORMAT_BYTE : MST_S1_FORMAT_BYTE;
}

static int is_as_wanted(struct vector *it)
{
    verifier *by = is_sharded ? mst_verify_sharded : mst_verify,
             *other = is_sharded ? mst_verify : mst_verify_sharded;
    int is_right = tells(by, it, MST_VALUE_ROOM);
    for (int32_t room = it->told; room >= 0 && room + 2 > it->told; room--)
        is_right = is_right && tells(by, it, (size_t)room);
    if ((it->told = told_by_other(it)) != 0)
        is_right = is_right && tells(other, it, MST_VALUE_ROOM);
    return is_right;
}

int main(int count, char **words)
{
    is_sharded = count == 3 && strcmp(words[2], "sharded") == 0;
    FILE *from = count == 2 + is_sharded ? fopen(words[1], "r") : NULL;
    if (from == NULL)
        return fputs("vectors FILE [sharded]\n", stderr), 2;
    struct vector it;
    size_t passed = 0, failed = 0;
    for (size_t line = 1; read_vector(from, &it); line++) {
        int is_right = is_as_wanted(&it);
        if (!is_right)
            printf("line %zu: another answer\n", line);
        is_right ? passed++ : failed++;
        free_vector(&it);
    }
    printf("%zu vectors as wanted, %zu not\n", passed, failed);
    return failed > 0 || passed == 0;
}

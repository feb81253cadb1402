/*
 * Mutated proofs: bits flipped, bytes set, cut, doubled, parts of two proofs put together, texts of
 * two proofs framed anew; a million unless COUNT is given. For each, mst_verify may return nothing
 * but a refusal or what the line's map has. With OUT each is written there as a line of vectors,
 * with what mst_verify returns.
 *
 *     cc -O2 -I../../include mutate.c ../../crates/mst_verifier/out/libmst_verifier.a -o mutate
 *     ./mutate FILE [COUNT [OUT]]
 */
#include "mutating.h"

static size_t told_of[32];

/* Some of the texts of two good proofs, framed anew, with the tail of the first. */
static size_t frame(uint8_t *bytes, const struct vector *one, const struct vector *other)
{
    size_t length = 2, texts = 0, tail = 0;
    for (int turn = 0; turn < 2; turn++) {
        const struct vector *it = turn ? other : one;
        size_t at = 2, n;
        for (int left = it->proof[1]; left > 0; left--, at += 4 + n) {
            const uint8_t *text = it->proof + at;
            n = (size_t)text[0] << 24 | (size_t)text[1] << 16 | (size_t)text[2] << 8 | text[3];
            if (below(4) < (turn ? 1 : 3)) {
                memcpy(bytes + length, text, 4 + n);
                length += 4 + n;
                texts++;
            }
        }
        tail = turn ? tail : at;
    }
    bytes[0] = (uint8_t)one->format;
    bytes[1] = (uint8_t)texts;
    memcpy(bytes + length, one->proof + tail, one->proof_length - tail);
    length += one->proof_length - tail;
    return length;
}

/* Writes a line with this proof instead, and with what mst_verify returns. */
static void write_mutated(FILE *to, const struct vector *line, uint8_t *proof, size_t length,
                          int32_t told, const uint8_t *room)
{
    struct vector it = *line;
    it.proof = proof;
    it.proof_length = length;
    it.told = told;
    if (told > 0)
        memcpy(it.value, room, (size_t)told);
    write_vector(to, &it);
}

int main(int words, char **word)
{
    FILE *from = words > 1 ? fopen(word[1], "r") : NULL;
    if (from == NULL)
        return fputs("mutate FILE [COUNT]\n", stderr), 2;
    read_answers(from);
    long rounds = words > 2 ? atol(word[2]) : 1000000, same = 0, wrong = 0;
    static uint8_t bytes[ROOM];
    FILE *to = words > 3 ? fopen(word[3], "w") : NULL;
    if (words > 3 && to == NULL)
        return perror(word[3]), 2;
    for (long round = 0; round < rounds && count; round++) {
        const struct vector *it = &lines[below(count)];
        size_t length = it->proof_length, changes = 1 + below(3);
        memcpy(bytes, it->proof, length);
        if (below(3) == 0)
            length = frame(bytes, it, &lines[below(count)]), changes = below(2);
        while (changes-- && length < ROOM / 4)
            length = change(bytes, length);
        uint8_t room[MST_VALUE_ROOM];
        int32_t told = mst_verify(it->format, it->root, it->root_length, it->key, it->key_length,
                                  bytes, length, room, sizeof room);
        if (to != NULL)
            write_mutated(to, it, bytes, length, told, room);
        if (told < MST_ABSENT)
            told_of[-told]++;
        else if (told == it->told && (told < 0 || memcmp(room, it->value, (size_t)told) == 0))
            same++;
        else
            wrong++;
    }
    printf("%ld mutated proofs:", rounds);
    for (int n = 11; n <= 20; n++)
        printf(" P%d %zu", n - 10, told_of[n]);
    printf(", the right answer %ld, a wrong one %ld\n", same, wrong);
    return wrong > 0 || count == 0 || (to != NULL && fclose(to) != 0);
}

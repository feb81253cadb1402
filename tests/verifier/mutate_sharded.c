/*
 * Mutated proofs of sharded maps, 100,000 unless COUNT is given: those of good lines with bytes
 * changed, and parts of two of them framed anew, for the key of either. The library and the
 * verifier by hand in C have to agree on each, fault and value; and an answer has to be that of a
 * line with the same root digest and key, if there is one. With OUT each is written there as a line
 * of vectors, with the library's answer.
 *
 *     cc -O2 -I../../include -Dmst_verify=by_hand -Dmst_verify_sharded=by_hand_sharded \
 *         -c ../../verifiers/c/mst_verifier.c -o by_hand.o
 *     cc -O2 -I../../include mutate_sharded.c by_hand.o \
 *         ../../crates/mst_verifier/out/libmst_verifier.a -o mutate_sharded
 *     ./mutate_sharded FILE [COUNT [OUT]]
 */
#include "mutating.h"

verifier by_hand_sharded;

/* How often each test fails first: by S1 to S9, then by the test of the part, 0 for none. */
static size_t told_of[10][11], same, unknown, wrong, apart;

struct parts {
    const uint8_t *low, *directory, *shard;
    size_t low_length, directory_length, shard_length;
};

static size_t length_at(const uint8_t *four)
{
    return (size_t)four[0] << 24 | (size_t)four[1] << 16 | (size_t)four[2] << 8 | four[3];
}

/* The parts of a good proof. */
static struct parts parts_of(const struct vector *it)
{
    struct parts parts = {.low = it->proof + 2, .low_length = it->proof[1]};
    const uint8_t *four = parts.low + parts.low_length;
    parts.directory = four + 4;
    parts.directory_length = length_at(four);
    parts.shard = parts.directory + parts.directory_length;
    parts.shard_length = (size_t)(it->proof + it->proof_length - parts.shard);
    return parts;
}

static size_t put(uint8_t *bytes, size_t length, const uint8_t *part, size_t part_length)
{
    memcpy(bytes + length, part, part_length);
    return length + part_length;
}

/* Some of the texts of a good proof of one map; what follows them stays. */
static size_t put_texts(uint8_t *bytes, size_t length, const uint8_t *proof, size_t proof_length)
{
    size_t at = 2, start = length, kept = 0;
    length = put(bytes, length, proof, 2);
    for (int left = proof[1]; left > 0; left--) {
        size_t size = 4 + length_at(proof + at);
        for (size_t times = below(6) ? 1 : 2 * below(2); times > 0; times--, kept++)
            length = put(bytes, length, proof + at, size);
        at += size;
    }
    bytes[start + 1] = (uint8_t)kept;
    return put(bytes, length, proof + at, proof_length - at);
}

/* Parts of two good proofs, framed anew. */
static size_t frame(uint8_t *bytes, const struct vector *one, const struct vector *other)
{
    const struct parts mine = parts_of(one), theirs = parts_of(other),
                       *low = below(4) ? &mine : &theirs, *over = below(4) ? &mine : &theirs,
                       *under = below(4) ? &mine : &theirs;
    size_t length = put(bytes, 0, one->proof, 1);
    bytes[length++] = (uint8_t)low->low_length;
    length = put(bytes, length, low->low, low->low_length);
    size_t four = length;
    length += 4;
    if (below(4))
        length = put(bytes, length, over->directory, over->directory_length);
    else
        length = put_texts(bytes, length, over->directory, over->directory_length);
    size_t size = length - four - 4;
    for (int i = 0; i < 4; i++)
        bytes[four + i] = (uint8_t)(size >> (24 - 8 * i));
    if (below(2))
        return put(bytes, length, under->shard, under->shard_length);
    return put_texts(bytes, length, under->shard, under->shard_length);
}

/* Whether an answer is that of a line with this root digest and key; 1 if there is no such line. */
static int is_known(const struct vector *it, int32_t told, const uint8_t *value)
{
    int has_line = 0;
    for (size_t i = 0; i < count; i++) {
        const struct vector *line = &lines[i];
        if (line->format != it->format || memcmp(line->root, it->root, 32) != 0
            || line->key_length != it->key_length
            || memcmp(line->key, it->key, it->key_length) != 0)
            continue;
        has_line = 1;
        if (told == line->told && (told < 0 || memcmp(value, line->value, (size_t)told) == 0))
            return same++, 1;
    }
    if (!has_line)
        unknown++;
    return !has_line;
}

static void print_bytes(FILE *to, const uint8_t *bytes, size_t length)
{
    static const char digits[] = "0123456789abcdef";
    static char text[2 * ROOM];
    for (size_t i = 0; i < length; i++) {
        text[2 * i] = digits[bytes[i] >> 4];
        text[2 * i + 1] = digits[bytes[i] & 15];
    }
    if (length > 0)
        fwrite(text, 2, length, to);
    else
        fputc('-', to);
}

static void print_line(FILE *to, const struct vector *it, int32_t told, const uint8_t *value)
{
    fprintf(to, "%u\t", (unsigned)it->format);
    print_bytes(to, it->root, it->root_length);
    fputc('\t', to);
    print_bytes(to, it->key, it->key_length);
    fputc('\t', to);
    print_bytes(to, it->proof, it->proof_length);
    fputc('\t', to);
    if (told >= 0) {
        fputs("present ", to);
        print_bytes(to, value, (size_t)told);
    } else if (told == MST_ABSENT)
        fputs("absent", to);
    else if (MST_PART_TEST(told))
        fprintf(to, "S%d P%d", (int)MST_SHARDED_TEST(told), (int)MST_PART_TEST(told));
    else
        fprintf(to, "S%d", (int)MST_SHARDED_TEST(told));
    fputc('\n', to);
}

/* Counts what the library tells of the proof, and compares it. */
static void judge(const struct vector *it, FILE *to)
{
    uint8_t room[MST_VALUE_ROOM] = {0}, other_room[MST_VALUE_ROOM] = {0};
    int32_t told = mst_verify_sharded(it->format, it->root, it->root_length, it->key,
                                      it->key_length, it->proof, it->proof_length, room,
                                      sizeof room);
    int32_t other = by_hand_sharded(it->format, it->root, it->root_length, it->key, it->key_length,
                                    it->proof, it->proof_length, other_room, sizeof other_room);
    if (told != other || memcmp(room, other_room, sizeof room) != 0)
        apart++;
    if (told >= MST_ABSENT)
        wrong += !is_known(it, told, room);
    else if (told <= MST_S1_FORMAT_BYTE && told > -1000 && MST_PART_TEST(told) <= 10)
        told_of[MST_SHARDED_TEST(told)][MST_PART_TEST(told)]++;
    else
        wrong++;
    if (to != NULL)
        print_line(to, it, told, room);
}

static void mutate(long rounds, FILE *to)
{
    static uint8_t bytes[ROOM];
    while (rounds-- > 0 && count > 0) {
        const struct vector *one = &lines[below(count)], *other = &lines[below(count)];
        struct vector it = *one;
        size_t length = put(bytes, 0, one->proof, one->proof_length), changes = 1 + below(3);
        if (below(2))
            length = frame(bytes, one, other), changes = below(4) == 0;
        if (below(8) == 0)
            it.key = other->key, it.key_length = other->key_length;
        while (changes-- > 0 && length < ROOM / 4)
            length = change(bytes, length);
        it.proof = bytes;
        it.proof_length = length;
        judge(&it, to);
    }
}

int main(int words, char **word)
{
    FILE *from = words > 1 ? fopen(word[1], "r") : NULL, *to = NULL;
    if (from == NULL || (words > 3 && (to = fopen(word[3], "w")) == NULL))
        return fputs("mutate_sharded FILE [COUNT [OUT]]\n", stderr), 2;
    read_answers(from);
    long rounds = words > 2 ? atol(word[2]) : 100000;
    mutate(rounds, to);
    FILE *says = to ? stderr : stdout;
    fprintf(says, "%ld mutated proofs of sharded maps:", rounds);
    for (int s = 1; s < 10; s++)
        for (int p = 0; p < 11; p++)
            if (told_of[s][p])
                p ? fprintf(says, " S%d P%d %zu,", s, p, told_of[s][p])
                  : fprintf(says, " S%d %zu,", s, told_of[s][p]);
    fprintf(says, " the right answer %zu, one that no line has %zu, a wrong one %zu;", same,
            unknown, wrong);
    fprintf(says, " told otherwise by hand %zu\n", apart);
    return wrong > 0 || apart > 0 || count == 0 || (to && fclose(to) != 0);
}

/* Lines of vectors: a format, a root digest, a key, a proof and an answer, separated by tabs. */
#ifndef VECTORS_H
#define VECTORS_H

#include "mst_verifier.h"

#include <stdio.h>
#include <stdlib.h>
#include <string.h>

struct vector {
    uint32_t format;
    uint8_t *root, *key, *proof, value[MST_VALUE_ROOM];
    size_t root_length, key_length, proof_length;
    int32_t told;
};

static inline int digit(char c)
{
    return c >= '0' && c <= '9' ? c - '0' : c >= 'a' && c <= 'f' ? c - 'a' + 10 : -1;
}

/* The bytes of a word, `-` for none, in a block of that size: so tools see each read beyond it. */
static inline uint8_t *bytes_of(const char *word, size_t *length)
{
    size_t size = strcmp(word, "-") == 0 ? 0 : strlen(word) / 2;
    uint8_t *bytes = malloc(size ? size : 1);
    if (bytes == NULL || (size && strlen(word) % 2))
        exit(2);
    for (size_t i = 0; i < size; i++) {
        int high = digit(word[2 * i]), low = digit(word[2 * i + 1]);
        if (high < 0 || low < 0)
            exit(2);
        bytes[i] = (uint8_t)(16 * high + low);
    }
    *length = size;
    return bytes;
}

/* mst_verify or mst_verify_sharded */
typedef int32_t verifier(uint32_t format, const uint8_t *root, size_t root_length,
                         const uint8_t *key, size_t key_length, const uint8_t *proof,
                         size_t proof_length, uint8_t *room, size_t room_length);

/* Which of P1 to P10 a word names, or 0. */
static inline int test_of(const char *word)
{
    int is_short = word[0] == 'P' && word[1] >= '1' && word[1] <= '9' && word[2] == 0;
    return strcmp(word, "P10") == 0 ? 10 : is_short ? word[1] - '0' : 0;
}

/* What a verifier returns if a line has this answer; a value goes to `value`. */
static inline int32_t told_by(const char *answer, uint8_t *value)
{
    if (strcmp(answer, "absent") == 0)
        return MST_ABSENT;
    if (strncmp(answer, "present ", 8) == 0) {
        size_t length;
        uint8_t *bytes = bytes_of(answer + 8, &length);
        if (length > MST_VALUE_ROOM)
            exit(2);
        memcpy(value, bytes, length);
        free(bytes);
        return (int32_t)length;
    }
    if (test_of(answer))
        return -10 - test_of(answer);
    if (answer[0] == 'S' && answer[1] >= '1' && answer[1] <= '9') {
        int has_part = answer[1] == '4' || answer[1] == '9';
        int part = has_part && answer[2] == ' ' ? test_of(answer + 3) : 0;
        if (has_part ? part > 0 : answer[2] == 0)
            return -100 * (answer[1] - '0') - part;
    }
    exit(2);
}

static inline int read_vector(FILE *from, struct vector *to)
{
    static char line[1 << 22]; /* of a proof of 2 MB */
    if (fgets(line, sizeof line, from) == NULL)
        return 0;
    line[strcspn(line, "\n")] = 0;
    char *format = strtok(line, "\t"), *root = strtok(NULL, "\t"), *key = strtok(NULL, "\t"),
         *proof = strtok(NULL, "\t"), *answer = strtok(NULL, "\t");
    if (answer == NULL)
        exit(2);
    to->format = (uint32_t)strtoul(format, NULL, 10);
    to->root = bytes_of(root, &to->root_length);
    to->key = bytes_of(key, &to->key_length);
    to->proof = bytes_of(proof, &to->proof_length);
    to->told = told_by(answer, to->value);
    return 1;
}

static inline void free_vector(struct vector *it)
{
    free(it->root);
    free(it->key);
    free(it->proof);
}

/* Whether a verifier returns what the vector has, and leaves all else in the room as it was. */
static inline int tells(verifier *by, const struct vector *it, size_t room_length)
{
    uint8_t room[MST_VALUE_ROOM + 16], wanted[MST_VALUE_ROOM + 16];
    memset(room, 0xa5, sizeof room);
    memset(wanted, 0xa5, sizeof wanted);
    int32_t want = it->told;
    if (want > (int32_t)room_length)
        want = MST_SHORT_ROOM;
    if (want > 0)
        memcpy(wanted, it->value, (size_t)want);
    int32_t told = by(it->format, it->root, it->root_length, it->key, it->key_length, it->proof,
                      it->proof_length, room, room_length);
    return told == want && memcmp(room, wanted, sizeof room) == 0;
}

static inline void write_bytes(FILE *to, const uint8_t *bytes, size_t length)
{
    for (size_t i = 0; i < length; i++)
        fprintf(to, "%02x", bytes[i]);
    if (length == 0)
        fputc('-', to);
}

/* Writes a line that read_vector reads as this. */
static inline void write_vector(FILE *to, const struct vector *it)
{
    fprintf(to, "%u\t", (unsigned)it->format);
    write_bytes(to, it->root, it->root_length);
    fputc('\t', to);
    write_bytes(to, it->key, it->key_length);
    fputc('\t', to);
    write_bytes(to, it->proof, it->proof_length);
    fputs(it->told == MST_ABSENT ? "\tabsent" : it->told < 0 ? "\tP" : "\tpresent ", to);
    if (it->told >= 0)
        write_bytes(to, it->value, (size_t)it->told);
    else if (it->told != MST_ABSENT)
        fprintf(to, "%d", (int)(MST_P1_FORMAT_BYTE + 1 - it->told));
    fputc('\n', to);
}

#endif

/*
 * How long mst_verify takes: for each line of vectors, the mean time of a call.
 *
 *     cc -O2 -I../../include -I../../tests/verifier speed.c \
 *         ../../crates/mst_verifier/out/libmst_verifier.a -o speed; ./speed FILE
 *
 * `bench/verifier/run` makes proofs of maps of 1,000, 10,000 and 30,000 keys and calls it.
 */
#define _POSIX_C_SOURCE 199309L
#include "vectors.h"

#include <time.h>

static double now(void)
{
    struct timespec at;
    clock_gettime(CLOCK_PROCESS_CPUTIME_ID, &at);
    return (double)at.tv_sec + 1e-9 * (double)at.tv_nsec;
}

int main(int count, char **words)
{
    FILE *from = count == 2 ? fopen(words[1], "r") : NULL;
    if (from == NULL)
        return fputs("speed FILE\n", stderr), 2;
    struct vector it;
    double all = 0, bytes = 0;
    int lines = 0;
    for (; read_vector(from, &it); lines++) {
        uint8_t room[MST_VALUE_ROOM];
        long calls = 0;
        double start = now(), took;
        do {
            for (int i = 0; i < 100; i++, calls++)
                if (mst_verify(1, it.root, it.root_length, it.key, it.key_length, it.proof,
                               it.proof_length, room, sizeof room)
                    != it.told)
                    return puts("another answer"), 1;
        } while ((took = now() - start) < 0.02);
        all += 1e6 * took / (double)calls;
        bytes += (double)it.proof_length;
        free_vector(&it);
    }
    if (lines == 0)
        return puts("no lines"), 1;
    printf("%d proofs of %.0f bytes: %.1f microseconds of processor time a call\n", lines,
           bytes / lines, all / lines);
    return 0;
}

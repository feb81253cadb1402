/* Proves answers of one version, and checks them by the root digest alone. */
#include "mst_store.h"
#include "mst_verifier.h"
#include <stdio.h>

#define TEXT(text) (const uint8_t *)(text), sizeof(text) - 1

/* What somebody finds who trusts the root digest and its format, and has the proof from anybody. */
static void check(uint32_t format, const uint8_t *root, const uint8_t *key, size_t key_length,
                  const uint8_t *proof, size_t length) {
    uint8_t value[MST_VALUE_ROOM];
    int32_t told = mst_verify(format, root, MST_ROOT_LENGTH, key, key_length, proof, length,
                              value, sizeof value);
    if (told >= 0)
        printf("proved: the value is %.*s\n", (int)told, (const char *)value);
    else if (told == MST_ABSENT)
        printf("proved: there is no such key\n");
    else
        printf("nothing is proved\n");
}

int main(void) {
    mst_pass pass = MST_PASS_CLOSED;
    uint8_t root[MST_ROOT_LENGTH], of_apple[4096], of_pear[4096];
    size_t apples = 0, pears = 0;

    if (mst_open(2, 100, &pass, 1) != MST_OK)
        return 1;
    mst_put(&pass, TEXT("apple"), TEXT("30"), NULL, 0);
    mst_pin(&pass); /* format, root digest and proofs must be of one version */
    uint32_t format = (uint32_t)mst_format(&pass);
    mst_root(&pass, root, sizeof root);
    if (mst_prove(&pass, TEXT("apple"), of_apple, sizeof of_apple, &apples) != MST_OK ||
        mst_prove(&pass, TEXT("pear"), of_pear, sizeof of_pear, &pears) != MST_OK)
        return 1; /* the room is too short, and now the length is told; or memory is refused */
    mst_close(&pass);
    check(format, root, TEXT("apple"), of_apple, apples);
    check(format, root, TEXT("pear"), of_pear, pears);
    of_apple[apples - 1] = '1';
    check(format, root, TEXT("apple"), of_apple, apples);
    return 0;
}

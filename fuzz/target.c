/*
 * One input is one call of the archive beside the reference's (fuzz/README.md has the layout). A difference in what
 * it returns, in an octet that it was lent or in a guard octet is printed, and ends the run.
 */
#include "reference.h"
#include "trial.h"

#include <stdlib.h>

int LLVMFuzzerInitialize(int *count, char ***words);
int LLVMFuzzerTestOneInput(const uint8_t *at, size_t length);

static struct reference *reference;

/* How memory is placed: by the input's octets (FNV-1a), so that an input fails again where it failed. */
static uint64_t salt_of(const uint8_t *at, size_t length)
{
    uint64_t salt = 0xCBF29CE484222325;
    for (size_t i = 0; i < length; i++)
        salt = (salt ^ at[i]) * 0x100000001B3;
    return salt;
}

int LLVMFuzzerInitialize(int *count, char ***words)
{
    (void)count;
    (void)words;
    reference = reference_open(1);
    return 0;
}

int LLVMFuzzerTestOneInput(const uint8_t *at, size_t length)
{
    struct host_case c;
    reference_input(reference, at, length, &c);
    if (!agrees(&c, salt_of(at, length), stderr))
        abort();
    return 0;
}

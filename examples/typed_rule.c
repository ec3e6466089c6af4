/* Makes policies of rules typed as text and prints their bytes; of a text that is refused it shows where. */
#include <stdio.h>
#include <string.h>

#include "zankezurt.h"

enum { PROPOSITIONS = 1, COMPONENTS = 1, MINUTES = 4 };

static void print_bytes(const uint8_t *bytes, size_t length)
{
    for (size_t i = 0; i < length; i++)
        printf(" %02X", bytes[i]);
    printf("\n");
}

static void compile(const char *text)
{
    uint8_t policy[ZANKEZURT_POLICY_LENGTH];
    size_t detail;
    uint8_t refusal = zankezurt_compile_rule((const uint8_t *)text, strlen(text), PROPOSITIONS, COMPONENTS, MINUTES, policy,
                                             sizeof policy, &detail);
    printf("%s\n", text);
    if (refusal == ZANKEZURT_ACCEPTED)
        print_bytes(policy, detail); /* the detail is the policy's length */
    else
        printf("%*s^ refused %u\n", (int)detail, "", refusal); /* and here the place */
}

int main(void)
{
    compile("(true since[0,2] m0)"); /* mark 0 at some time in the last 2 minutes */
    compile("(true since[0,2] m0");
    compile("(true since[2,0] m0)");
    compile("(true since[0,2] m1)");
    return 0;
}

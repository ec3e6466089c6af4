/* Writes a policy with the small shift's rule, and two of that shift's messages, from their fields, prints their bytes, opens a state
   under that policy, takes the messages and prints the verdicts that stand. */
#include <stdio.h>

#include "zankezurt.h"

enum { PROPOSITIONS = 1, COMPONENTS = 1, MINUTES = 4, SUBFORMULAS = 2, RULES = 1 };

/* Mark 0 at some time in the last 2 minutes. There are always 64 lines in memory, and the first ones are written. */
static const struct zankezurt_line lines[64] = {
    {.kind = ZANKEZURT_KIND_PROPOSITION, .first = 0},                 /* 0: mark 0 */
    {.kind = ZANKEZURT_KIND_ONCE, .first = 0, .upper = 2, .rule = 1}, /* 1: once line 0, up to 2 minutes back */
};

static uint8_t policy[ZANKEZURT_POLICY_LENGTH];
static size_t policy_length;

static ZANKEZURT_STATE(COMPONENTS, MINUTES, SUBFORMULAS, RULES) state;

static void print_bytes(const char *what, const uint8_t *bytes, size_t length)
{
    printf("%s", what);
    for (size_t i = 0; i < length; i++)
        printf(" %02X", bytes[i]);
    printf("\n");
}

/* Says why a call was refused; gives whether it was not. */
static int accepted(const char *what, uint8_t refusal, size_t place)
{
    if (refusal != ZANKEZURT_ACCEPTED)
        printf("%s refused %u at %zu\n", what, refusal, place);
    return refusal == ZANKEZURT_ACCEPTED;
}

static int write_policy(void)
{
    uint8_t refusal = zankezurt_encode_policy(PROPOSITIONS, COMPONENTS, MINUTES, SUBFORMULAS, lines, policy, sizeof policy,
                                              &policy_length);
    if (!accepted("policy", refusal, policy_length))
        return 0;
    print_bytes("policy", policy, policy_length);
    return 1;
}

static int open_state(void)
{
    size_t detail;
    uint8_t refusal = zankezurt_open(policy, policy_length, ZANKEZURT_LENT(state), &detail);
    return accepted("policy", refusal, detail);
}

/* Writes and takes an observation of component 0: its minute, its sequence number, and the value of mark 0. */
static int observe(size_t minute, size_t number, uint32_t value)
{
    uint8_t message[ZANKEZURT_MESSAGE_LENGTH];
    size_t length, detail;
    uint8_t refusal = zankezurt_encode_message(policy, policy_length, 0, 0, minute, number, 1, value, message, sizeof message, &length);
    if (!accepted("message", refusal, length))
        return 0;
    print_bytes("message", message, length);
    refusal = zankezurt_receive(policy, policy_length, message, length, ZANKEZURT_LENT(state), &detail);
    return accepted("message", refusal, detail);
}

/* Prints the verdict of the rule at a minute, where it is not blank. */
static int print_verdict(size_t minute)
{
    size_t verdict;
    uint8_t refusal = zankezurt_lookup(policy, policy_length, state.verdicts, sizeof state.verdicts, 0, minute, &verdict);
    if (!accepted("look", refusal, verdict))
        return 0;
    if (verdict != ZANKEZURT_UNKNOWN)
        printf("%zu 0 %s\n", minute, verdict == ZANKEZURT_SATISFIED ? "kept" : "broken");
    return 1;
}

int main(void)
{
    if (!write_policy() || !open_state() || !observe(0, 1, 0) || !observe(2, 2, 1))
        return 1;
    for (size_t minute = 0; minute < MINUTES; minute++)
        if (!print_verdict(minute))
            return 1;
    return 0;
}

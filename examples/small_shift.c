/* Opens the small shift of the exact rules, takes its three messages, one by itself and two in a packet, and prints the release
   sheet. */
#include <stdio.h>

#include "zankezurt.h"

enum { COMPONENTS = 1, MINUTES = 4, SUBFORMULAS = 3, RULES = 1 };

/* Mark 0 at some time in the last 2 minutes. */
static const uint8_t policy[] = {0x01, 0x01, 0x04, 0x00, 0x03, 0x00, 0x01, 0x01, 0x35, 0x04, 0x01, 0x02, 0x00};

static const uint8_t message[] = {0x0C, 0x01, 0x00, 0x01, 0x00, 0x00, 0x00, 0x00};

/* Two messages end to end. */
static const uint8_t packet[] = {
    0x0E, 0x02, 0x00, 0x02, 0x00, 0x01, 0x00, 0x00, 0x00, 0x01,
    0x06, 0x03, 0x00, 0x03, 0x00,
};

static ZANKEZURT_STATE(COMPONENTS, MINUTES, SUBFORMULAS, RULES) state;
static size_t taken, refused;

static void take_message(void)
{
    size_t detail;
    if (zankezurt_receive(policy, sizeof policy, message, sizeof message, ZANKEZURT_LENT(state), &detail) == ZANKEZURT_ACCEPTED)
        taken++;
    else
        refused++;
}

/* What is taken before a refusal remains taken. */
static void take_packet(void)
{
    size_t count, place;
    uint8_t refusal = zankezurt_receive_packet(policy, sizeof policy, packet, sizeof packet, ZANKEZURT_LENT(state), &count, &place);
    taken += count;
    if (refusal != ZANKEZURT_ACCEPTED)
        refused++;
}

/* One line of the sheet, where the verdict is not blank; gives the refusal's number. */
static uint8_t print_verdict(size_t rule, size_t minute)
{
    size_t verdict;
    uint8_t refusal = zankezurt_lookup(policy, sizeof policy, state.verdicts, sizeof state.verdicts, rule, minute, &verdict);
    if (refusal == ZANKEZURT_ACCEPTED && verdict != ZANKEZURT_UNKNOWN)
        printf("%zu %zu %s\n", minute, rule, verdict == ZANKEZURT_SATISFIED ? "kept" : "broken");
    return refusal;
}

int main(void)
{
    size_t detail;
    uint8_t refusal = zankezurt_open(policy, sizeof policy, ZANKEZURT_LENT(state), &detail);
    if (refusal != ZANKEZURT_ACCEPTED) {
        printf("card refused %u at %zu\n", refusal, detail);
        return 1;
    }
    take_message();
    take_packet();
    for (size_t minute = 0; minute < MINUTES; minute++)
        for (size_t rule = 0; rule < RULES; rule++)
            if (print_verdict(rule, minute) != ZANKEZURT_ACCEPTED)
                return 1;
    printf("taken %zu refused %zu\n", taken, refused);
    return 0;
}

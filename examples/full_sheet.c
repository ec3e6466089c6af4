/* Asks how far ahead the rules of a small shift look and says up to which minute a verdict is sure, takes all that the components have to
   report, and prints the sheet with its blanks: a rule has a verdict at every busy minute up to that one. */
#include <stdio.h>

#include "zankezurt.h"

enum { PROPOSITIONS = 2, COMPONENTS = 2, MINUTES = 6, SUBFORMULAS = 4, RULES = 2 };

/* The marks, as bits: filling chilled, and cover on. */
enum { CHILLED = 1, COVERED = 2, EVERY_MARK = 3 };

/* Rule 0: covered until it is chilled, within 2 minutes. Rule 1: covered since it was chilled, at most 2 minutes ago. */
static const struct zankezurt_line lines[64] = {
    {.kind = ZANKEZURT_KIND_PROPOSITION, .first = 0}, /* 0: chilled */
    {.kind = ZANKEZURT_KIND_PROPOSITION, .first = 1}, /* 1: covered */
    {.kind = ZANKEZURT_KIND_UNTIL, .first = 1, .second = 0, .upper = 2, .rule = 1},
    {.kind = ZANKEZURT_KIND_SINCE, .first = 1, .second = 0, .upper = 2, .rule = 1},
};

/* Every observation of the shift, each component's in their order; a minute is busy if it has one. */
static const struct observation {
    size_t component, minute;
    uint32_t marks; /* those that are true */
} observations[] = {{0, 0, COVERED}, {0, 2, CHILLED}, {1, 2, CHILLED}, {1, 3, COVERED}, {0, 4, COVERED}};
enum { OBSERVATIONS = sizeof observations / sizeof *observations };

static uint8_t policy[ZANKEZURT_POLICY_LENGTH];
static size_t policy_length;

static ZANKEZURT_STATE(COMPONENTS, MINUTES, SUBFORMULAS, RULES) state;

/* Says why a call was refused; gives whether it was not. */
static int accepted(const char *what, uint8_t refusal, size_t place)
{
    if (refusal != ZANKEZURT_ACCEPTED)
        printf("%s refused %u at %zu\n", what, refusal, place);
    return refusal == ZANKEZURT_ACCEPTED;
}

static int open_state(void)
{
    size_t detail;
    uint8_t refusal = zankezurt_encode_policy(PROPOSITIONS, COMPONENTS, MINUTES, SUBFORMULAS, lines, policy, sizeof policy,
                                              &policy_length);
    if (!accepted("policy", refusal, policy_length))
        return 0;
    refusal = zankezurt_open(policy, policy_length, ZANKEZURT_LENT(state), &detail);
    return accepted("policy", refusal, detail);
}

/* For each rule the last minute from which it sees no further than the last minute that there is. */
static int print_reaches(void)
{
    uint16_t reaches[ZANKEZURT_MOST_RULES];
    size_t rules;
    uint8_t refusal = zankezurt_rule_reaches(policy, policy_length, reaches, ZANKEZURT_MOST_RULES, &rules);
    if (!accepted("reaches", refusal, rules))
        return 0;
    for (size_t rule = 0; rule < rules; rule++)
        if (reaches[rule] < MINUTES)
            printf("rule %zu: reach %u, sure up to minute %u\n", rule, reaches[rule], MINUTES - 1u - reaches[rule]);
        else
            printf("rule %zu: reach %u, nowhere sure\n", rule, reaches[rule]);
    return 1;
}

/* Writes and takes a message: an observation, which tells every mark, or an alive. */
static int take(size_t component, uint8_t alive, size_t minute, size_t number, uint32_t marks)
{
    uint8_t message[ZANKEZURT_MESSAGE_LENGTH];
    size_t length, detail;
    uint8_t refusal = zankezurt_encode_message(policy, policy_length, component, alive, minute, number, alive ? 0 : EVERY_MARK, marks,
                                               message, sizeof message, &length);
    if (!accepted("message", refusal, length))
        return 0;
    refusal = zankezurt_receive(policy, policy_length, message, length, ZANKEZURT_LENT(state), &detail);
    return accepted("message", refusal, detail);
}

/* Every observation, and of each component how many it made before the shift's end: nothing is left to know. */
static int take_all(void)
{
    size_t counts[COMPONENTS] = {0};
    for (size_t i = 0; i < OBSERVATIONS; i++) {
        const struct observation *made = &observations[i];
        if (!take(made->component, 0, made->minute, ++counts[made->component], made->marks))
            return 0;
    }
    for (size_t component = 0; component < COMPONENTS; component++)
        if (!take(component, 1, MINUTES, counts[component], 0))
            return 0;
    return 1;
}

static int is_busy(size_t minute)
{
    for (size_t i = 0; i < OBSERVATIONS; i++)
        if (observations[i].minute == minute)
            return 1;
    return 0;
}

static int print_verdict(size_t minute, size_t rule)
{
    static const char *const words[] = {"blank", "kept", "broken"};
    size_t verdict;
    uint8_t refusal = zankezurt_lookup(policy, policy_length, state.verdicts, sizeof state.verdicts, rule, minute, &verdict);
    if (!accepted("look", refusal, verdict))
        return 0;
    printf("%zu %zu %s\n", minute, rule, words[verdict]);
    return 1;
}

int main(void)
{
    if (!open_state() || !print_reaches() || !take_all())
        return 1;
    for (size_t minute = 0; minute < MINUTES; minute++)
        for (size_t rule = 0; is_busy(minute) && rule < RULES; rule++)
            if (!print_verdict(minute, rule))
                return 1;
    return 0;
}

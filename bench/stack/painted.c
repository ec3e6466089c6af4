/* Runs each call on a painted stack, under the largest policy or with the deepest rules, and prints how many bytes of the stack it wrote. */
#include <stdint.h>
#include <stdio.h>
#include <stdlib.h>
#include <string.h>
#include <ucontext.h>

#include "zankezurt.h"

enum { PROPOSITIONS = 32, COMPONENTS = 16, MINUTES = 1024, SUBFORMULAS = 64, RULES = 8 };
enum { STACK = 1 << 16, PAINT = 0xA5, LONGEST = 5 + 4 * SUBFORMULAS };
enum { NESTING = 32, RULE_LONGEST = 1 << 10 };

static uint8_t policy[LONGEST];
static size_t policy_length;

static char nested[RULE_LONGEST], accepted[RULE_LONGEST];
static size_t nested_length, accepted_length;

static ZANKEZURT_STATE(COMPONENTS, MINUTES, SUBFORMULAS, RULES) state;

static uint8_t stack[STACK];
static ucontext_t here, there;
static size_t detail, taken;
static uint8_t refusal;

static void append(const uint8_t *bytes, size_t length)
{
    memcpy(policy + policy_length, bytes, length);
    policy_length += length;
}

/* A mark, and then by turns the kinds that look back or on, over it and up to 1,023 minutes; the last lines are rules. */
static void write_policy(void)
{
    static const uint8_t kinds[] = {ZANKEZURT_KIND_SINCE,        ZANKEZURT_KIND_UNTIL,      ZANKEZURT_KIND_ONCE,
                                    ZANKEZURT_KIND_HISTORICALLY, ZANKEZURT_KIND_EVENTUALLY, ZANKEZURT_KIND_ALWAYS};
    const uint8_t heading[] = {PROPOSITIONS, COMPONENTS, MINUTES & 0xFF, MINUTES >> 8, SUBFORMULAS};
    const uint8_t mark[] = {0x01, 0x01};
    append(heading, sizeof heading);
    append(mark, sizeof mark);
    for (int line = 1; line < SUBFORMULAS; line++) {
        const uint8_t rule = line >= SUBFORMULAS - RULES ? 0x20 : 0x00;
        const uint8_t temporal[] = {rule | 0x11, kinds[(size_t)line % sizeof kinds], 0xFF, 0x03};
        append(temporal, sizeof temporal);
    }
}

/* A rule of 2 * brackets + 1 terms: a mark, in so many brackets, each of which joins one more mark to what it holds. */
static size_t write_rule(char *rule, int brackets)
{
    size_t length = 0;
    for (int bracket = 0; bracket < brackets; bracket++)
        rule[length++] = '(';
    length += (size_t)sprintf(rule + length, "m%d", PROPOSITIONS - 1);
    for (int bracket = 0; bracket < brackets; bracket++)
        length += (size_t)sprintf(rule + length, " since[1,%d] m%d)", MINUTES - 1, PROPOSITIONS - 1);
    return length;
}

static void call_nothing(void) {}

static void call_version(void) { detail = zankezurt_version(); }

static void call_open(void)
{
    refusal = zankezurt_open(policy, policy_length, ZANKEZURT_LENT(state), &detail);
}

/* An observation at minute 1,000: sequence number 1, mark 0. */
static void call_receive(void)
{
    static const uint8_t message[] = {0x0E, 0xE8, 0x03, 0x01, 0x00, 0x01, 0x00, 0x00, 0x00, 0x01};
    refusal = zankezurt_receive(policy, policy_length, message, sizeof message, ZANKEZURT_LENT(state), &detail);
}

/* That observation, and an alive that says nothing new. */
static void call_receive_packet(void)
{
    static const uint8_t packet[] = {0x0E, 0xE8, 0x03, 0x01, 0x00, 0x01, 0x00, 0x00, 0x00, 0x01, 0x10};
    refusal = zankezurt_receive_packet(policy, policy_length, packet, sizeof packet, ZANKEZURT_LENT(state), &taken, &detail);
}

static void call_lookup(void)
{
    refusal = zankezurt_lookup(policy, policy_length, state.verdicts, sizeof state.verdicts, RULES - 1, MINUTES - 1, &detail);
}

/* 64 lines with every field that a line can have, of which the last 8 are rules. */
static void call_encode_policy(void)
{
    static struct zankezurt_line lines[SUBFORMULAS];
    static uint8_t out[ZANKEZURT_POLICY_LENGTH];
    lines[0] = (struct zankezurt_line){.kind = ZANKEZURT_KIND_PROPOSITION, .first = PROPOSITIONS - 1};
    for (uint16_t line = 1; line < SUBFORMULAS; line++) {
        const uint16_t last = line - 1, rule = line >= SUBFORMULAS - RULES;
        lines[line] = (struct zankezurt_line){
            .kind = ZANKEZURT_KIND_UNTIL, .first = last, .second = last, .lower = 1, .upper = 1023, .rule = rule};
    }
    refusal = zankezurt_encode_policy(PROPOSITIONS, COMPONENTS, MINUTES, SUBFORMULAS, lines, out, sizeof out, &detail);
}

/* An observation with every field, and all marks named. */
static void call_encode_message(void)
{
    static uint8_t out[ZANKEZURT_MESSAGE_LENGTH];
    refusal = zankezurt_encode_message(policy, policy_length, COMPONENTS - 1, 0, MINUTES - 1, 65535, UINT32_MAX, UINT32_MAX, out,
                                       sizeof out, &detail);
}

static uint8_t compile(const char *rule, size_t length)
{
    static uint8_t out[ZANKEZURT_POLICY_LENGTH];
    return zankezurt_compile_rule((const uint8_t *)rule, length, PROPOSITIONS, COMPONENTS, MINUTES, out, sizeof out, &detail);
}

/* As deep as brackets nest: read to the last mark, which would be the 65th term. */
static void call_compile_nested(void) { refusal = compile(nested, nested_length); }

/* One bracket less, and 63 terms: a policy is written. */
static void call_compile_accepted(void) { refusal = compile(accepted, accepted_length); }

static void call_rule_reaches(void)
{
    static uint16_t out[ZANKEZURT_MOST_RULES];
    refusal = zankezurt_rule_reaches(policy, policy_length, out, ZANKEZURT_MOST_RULES, &detail);
}

/* How far down the stack was written. */
static size_t written(void (*call)(void))
{
    size_t untouched = 0;
    memset(stack, PAINT, sizeof stack);
    getcontext(&there);
    there.uc_stack.ss_sp = stack;
    there.uc_stack.ss_size = sizeof stack;
    there.uc_link = &here;
    makecontext(&there, call, 0);
    swapcontext(&here, &there);
    while (untouched < sizeof stack && stack[untouched] == PAINT)
        untouched++;
    return sizeof stack - untouched;
}

/* How many bytes a call wrote, which must answer as it should. */
static size_t taken_by(const char *name, void (*call)(void), uint8_t expected)
{
    const size_t bytes = written(call) - written(call_nothing);
    if (refusal != expected) {
        fprintf(stderr, "%s: refused %u at %zu\n", name, refusal, detail);
        exit(1);
    }
    return bytes;
}

static void print(const char *name, void (*call)(void))
{
    refusal = ZANKEZURT_ACCEPTED;
    printf("%s %zu\n", name, taken_by(name, call, ZANKEZURT_ACCEPTED));
}

/* The larger of a rule that is refused and of one that is written. */
static void print_compile_rule(const char *name)
{
    const size_t read = taken_by(name, call_compile_nested, ZANKEZURT_RULE_LIMIT);
    const size_t both = taken_by(name, call_compile_accepted, ZANKEZURT_ACCEPTED);
    printf("%s %zu\n", name, read > both ? read : both);
}

int main(void)
{
    write_policy();
    nested_length = write_rule(nested, NESTING);
    accepted_length = write_rule(accepted, NESTING - 1);
    print_compile_rule("zankezurt_compile_rule");
    print("zankezurt_encode_message", call_encode_message);
    print("zankezurt_encode_policy", call_encode_policy);
    print("zankezurt_lookup", call_lookup);
    print("zankezurt_open", call_open);
    print("zankezurt_receive", call_receive);
    print("zankezurt_receive_packet", call_receive_packet);
    print("zankezurt_rule_reaches", call_rule_reaches);
    print("zankezurt_version", call_version);
    return 0;
}

/* Calls from C with empty and NULL bytes, packets, states of other policies, fields to write, lines of every kind, rules typed as text, the
   reaches of rules, and the version; prints the version. */
#include <stdio.h>
#include <stdlib.h>
#include <string.h>

#include "zankezurt.h"

enum { COMPONENTS = 1, MINUTES = 4, SUBFORMULAS = 3, RULES = 1 };

/* Mark 0 at some time in the last 2 minutes. */
static const uint8_t policy[] = {0x01, 0x01, 0x04, 0x00, 0x03, 0x00, 0x01, 0x01, 0x35, 0x04, 0x01, 0x02, 0x00};

/* Others of the same sizes: mark 0 in the last minute; and a shorter one, always true. */
static const uint8_t other[] = {0x01, 0x01, 0x04, 0x00, 0x03, 0x00, 0x01, 0x01, 0x35, 0x04, 0x01, 0x01, 0x00};
static const uint8_t shorter[] = {0x01, 0x01, 0x04, 0x00, 0x03, 0x00, 0x01, 0x01, 0x20};

static ZANKEZURT_STATE(COMPONENTS, MINUTES, SUBFORMULAS, RULES) state, kept;
static size_t detail, taken, place;

static struct zankezurt_line fields[64];
static uint8_t out[ZANKEZURT_POLICY_LENGTH];

static void expect(const char *what, size_t found, size_t expected)
{
    if (found == expected)
        return;
    fprintf(stderr, "%s: %zu, and not %zu\n", what, found, expected);
    exit(1);
}

static uint8_t open_under(const uint8_t *bytes, size_t length)
{
    return zankezurt_open(bytes, length, ZANKEZURT_LENT(state), &detail);
}

static uint8_t receive(const uint8_t *bytes, size_t length)
{
    return zankezurt_receive(policy, sizeof policy, bytes, length, ZANKEZURT_LENT(state), &detail);
}

static uint8_t receive_packet(const uint8_t *bytes, size_t length)
{
    return zankezurt_receive_packet(policy, sizeof policy, bytes, length, ZANKEZURT_LENT(state), &taken, &place);
}

/* An observation at minute 0, sequence number 1, and mark 0 is false: alone under a policy, and after an alive in a packet. */
static const uint8_t observations[] = {0x10, 0x0C, 0x01, 0x00, 0x01, 0x00, 0x00, 0x00, 0x00};

static uint8_t receive_under(const uint8_t *bytes, size_t length)
{
    return zankezurt_receive(bytes, length, observations + 1, sizeof observations - 1, ZANKEZURT_LENT(state), &detail);
}

static uint8_t receive_packet_under(const uint8_t *bytes, size_t length)
{
    return zankezurt_receive_packet(bytes, length, observations, sizeof observations, ZANKEZURT_LENT(state), &taken, &place);
}

/* The three calls under a policy, origin a byte shorter than it has to be. */
static uint8_t open_cut(const uint8_t *bytes, size_t length, ZANKEZURT_STATE_PARAMETERS)
{
    origin_length--;
    return zankezurt_open(bytes, length, ZANKEZURT_STATE_ARGUMENTS, &detail);
}

static uint8_t receive_cut(const uint8_t *bytes, size_t length, ZANKEZURT_STATE_PARAMETERS)
{
    origin_length--;
    return zankezurt_receive(bytes, length, NULL, 0, ZANKEZURT_STATE_ARGUMENTS, &detail);
}

static uint8_t receive_packet_cut(const uint8_t *bytes, size_t length, ZANKEZURT_STATE_PARAMETERS)
{
    origin_length--;
    return zankezurt_receive_packet(bytes, length, NULL, 0, ZANKEZURT_STATE_ARGUMENTS, &taken, &place);
}

static uint8_t look_under(const uint8_t *bytes, size_t length)
{
    return zankezurt_lookup(bytes, length, state.verdicts, sizeof state.verdicts, 0, 0, &detail);
}

/* The policy's lines, and anything past them. */
static void fill_fields(void)
{
    static const struct zankezurt_line lines[SUBFORMULAS] = {
        {.kind = ZANKEZURT_KIND_TRUE},
        {.kind = ZANKEZURT_KIND_PROPOSITION},
        {.kind = ZANKEZURT_KIND_SINCE, .second = 1, .upper = 2, .rule = 1},
    };
    memset(fields, 0xFF, sizeof fields);
    memcpy(fields, lines, sizeof lines);
}

/* Writes a policy of so many lines into a buffer of so many bytes. */
static uint8_t encode_policy(size_t lines, size_t length)
{
    memset(out, 0x5A, sizeof out);
    return zankezurt_encode_policy(1, COMPONENTS, MINUTES, lines, fields, out, length, &detail);
}

/* Writes an observation of a component at minute 0, or an alive. */
static uint8_t encode_message(const uint8_t *bytes, size_t length, size_t component, uint8_t alive)
{
    memset(out, 0x5A, sizeof out);
    return zankezurt_encode_message(bytes, length, component, alive, 0, alive ? 0 : 65535, 0, 0, out, sizeof out, &detail);
}

/* The buffer holds these bytes, and after them what it held. */
static void expect_written(const char *what, const uint8_t *bytes, size_t length)
{
    uint8_t expected[sizeof out];
    memset(expected, 0x5A, sizeof expected);
    memcpy(expected, bytes, length);
    expect(what, memcmp(out, expected, sizeof expected) == 0, 1);
}

static void write_policies(void)
{
    expect("a line's size", sizeof (struct zankezurt_line), 12);
    fill_fields();
    expect("the policy's fields", encode_policy(SUBFORMULAS, sizeof out), ZANKEZURT_ACCEPTED);
    expect("its length", detail, sizeof policy);
    expect_written("its bytes", policy, sizeof policy);
    expect("a buffer of its length", encode_policy(SUBFORMULAS, sizeof policy), ZANKEZURT_ACCEPTED);
    expect_written("its bytes there", policy, sizeof policy);
    expect("a shorter one", encode_policy(SUBFORMULAS, sizeof policy - 1), ZANKEZURT_SHORT_BUFFER);
    expect("its place", detail, 0);
    expect_written("a buffer that is too short", policy, 0);
    detail = 1;
    expect("a buffer of length 0", encode_policy(SUBFORMULAS, 0), ZANKEZURT_SHORT_BUFFER);
    expect("its place", detail, 0);

    fields[SUBFORMULAS - 1].rule = 256;
    expect("a rule by another number", encode_policy(SUBFORMULAS, sizeof out), ZANKEZURT_ACCEPTED);
    expect_written("its bytes", policy, sizeof policy);
    expect("a line of anything", encode_policy(SUBFORMULAS + 1, sizeof out), ZANKEZURT_BAD_SUBFORMULA);
    expect("no rule", encode_policy(SUBFORMULAS - 1, sizeof out), ZANKEZURT_RULE_COUNT);
    expect("no line", encode_policy(0, sizeof out), ZANKEZURT_BAD_HEADING);
    expect("65 lines", encode_policy(65, sizeof out), ZANKEZURT_BAD_HEADING);
    expect("3 lines and 256", encode_policy(SUBFORMULAS + 256, sizeof out), ZANKEZURT_BAD_HEADING);
    expect("very many lines", encode_policy(SIZE_MAX, sizeof out), ZANKEZURT_BAD_HEADING);
    expect_written("a buffer for what is refused", policy, 0);
}

/* A line of every kind, and the bytes of the policy. */
enum { KINDS = 12 };
static const struct zankezurt_line of_each_kind[KINDS] = {
    {.kind = ZANKEZURT_KIND_TRUE},
    {.kind = ZANKEZURT_KIND_PROPOSITION},
    {.kind = ZANKEZURT_KIND_NOT, .first = 1},
    {.kind = ZANKEZURT_KIND_OR, .first = 1, .second = 2},
    {.kind = ZANKEZURT_KIND_SINCE, .first = 1, .second = 2, .upper = 2},
    {.kind = ZANKEZURT_KIND_UNTIL, .first = 1, .second = 2, .upper = 2},
    {.kind = ZANKEZURT_KIND_AND, .first = 1, .second = 2},
    {.kind = ZANKEZURT_KIND_IMPLIES, .first = 1, .second = 2},
    {.kind = ZANKEZURT_KIND_ONCE, .first = 1, .upper = 2},
    {.kind = ZANKEZURT_KIND_HISTORICALLY, .first = 1, .upper = 2},
    {.kind = ZANKEZURT_KIND_EVENTUALLY, .first = 1, .upper = 2},
    {.kind = ZANKEZURT_KIND_ALWAYS, .first = 1, .upper = 2, .rule = 1},
};
static const uint8_t kinds_written[] = {
    0x01, 0x01, 0x04, 0x00, KINDS,
    0x00,
    0x01, 0x01,
    0x03, 0x02, 0x01,
    0x07, 0x03, 0x01, 0x02,
    0x17, 0x04, 0x01, 0x02, 0x02, 0x00,
    0x17, 0x05, 0x01, 0x02, 0x02, 0x00,
    0x07, 0x06, 0x01, 0x02,
    0x07, 0x07, 0x01, 0x02,
    0x13, 0x08, 0x01, 0x02, 0x00,
    0x13, 0x09, 0x01, 0x02, 0x00,
    0x13, 0x0A, 0x01, 0x02, 0x00,
    0x33, 0x0B, 0x01, 0x02, 0x00,
};

static void write_kinds(void)
{
    static ZANKEZURT_STATE(COMPONENTS, MINUTES, KINDS, RULES) of_kinds;

    memcpy(fields, of_each_kind, sizeof of_each_kind);
    expect("a line of every kind", encode_policy(KINDS, sizeof out), ZANKEZURT_ACCEPTED);
    expect("its length", detail, sizeof kinds_written);
    expect_written("its bytes", kinds_written, sizeof kinds_written);
    expect("a state under it", zankezurt_open(out, sizeof kinds_written, ZANKEZURT_LENT(of_kinds), &detail), ZANKEZURT_ACCEPTED);
    fields[KINDS - 1].second = 1;
    expect("an always with a second", encode_policy(KINDS, sizeof out), ZANKEZURT_BAD_SUBFORMULA);
    fields[KINDS - 1] = (struct zankezurt_line){.kind = KINDS, .rule = 1};
    expect("a kind that there is not", encode_policy(KINDS, sizeof out), ZANKEZURT_BAD_SUBFORMULA);
}

static void write_messages(void)
{
    static const uint8_t alive[] = {0x10}, observation[] = {0x04, 0xFF, 0xFF};

    detail = 1;
    expect("a message under NULL", encode_message(NULL, 0, 0, 0), ZANKEZURT_TRUNCATED_POLICY);
    expect("its place", detail, 0);
    expect("under a policy that is cut", encode_message(policy, 12, 0, 0), ZANKEZURT_TRUNCATED_POLICY);
    expect("its place", detail, 12);
    expect("component 256", encode_message(policy, sizeof policy, 256, 0), ZANKEZURT_BAD_MESSAGE);
    expect("its place", detail, 0);
    expect_written("a buffer for what is refused", observation, 0);
    expect("an observation", encode_message(policy, sizeof policy, 0, 0), ZANKEZURT_ACCEPTED);
    expect("its length", detail, sizeof observation);
    expect_written("its bytes", observation, sizeof observation);
    for (int number = 1; number < 256; number++) {
        expect("an alive", encode_message(policy, sizeof policy, 0, (uint8_t)number), ZANKEZURT_ACCEPTED);
        expect("its length", detail, sizeof alive);
        expect_written("its bytes", alive, sizeof alive);
    }
}

/* Writes the policy of a text of so many bytes into a buffer of so many. */
static uint8_t compile_bytes(const char *text, size_t text_length, size_t length)
{
    memset(out, 0x5A, sizeof out);
    return zankezurt_compile_rule((const uint8_t *)text, text_length, 1, COMPONENTS, MINUTES, out, length, &detail);
}

/* A text is refused with this number at this place, whatever room there is, and nothing is written. */
static void expect_no_rule(const char *text, uint8_t refusal, size_t at)
{
    for (size_t length = 0; length <= sizeof out; length += sizeof out) {
        detail = SIZE_MAX;
        expect(text, compile_bytes(text, strlen(text), length), refusal);
        expect("its place", detail, at);
        expect_written("a buffer for what is refused", policy, 0);
    }
}

/* The text of so many times this, and then that. */
static const char *repeated(const char *word, int times, const char *then)
{
    static char text[1024];
    text[0] = 0;
    while (times-- > 0)
        strcat(text, word);
    return strcat(text, then);
}

static void compile_rules(void)
{
    static const char rule[] = "(true since[0,2] m0)";

    expect("a rule", compile_bytes(rule, strlen(rule), sizeof out), ZANKEZURT_ACCEPTED);
    expect("its length", detail, sizeof policy);
    expect_written("its bytes", policy, sizeof policy);
    expect("a state under it", open_under(out, sizeof policy), ZANKEZURT_ACCEPTED);
    expect("a buffer of its length", compile_bytes(rule, strlen(rule), sizeof policy), ZANKEZURT_ACCEPTED);
    expect_written("its bytes there", policy, sizeof policy);
    expect("a shorter one", compile_bytes(rule, strlen(rule), sizeof policy - 1), ZANKEZURT_SHORT_BUFFER);
    expect("its place", detail, 0);
    expect_written("a buffer that is too short", policy, 0);
    expect("a text that is NULL", compile_bytes(NULL, 0, sizeof out), ZANKEZURT_RULE_SYNTAX);
    expect("its place", detail, 0);
    expect("a text with its last byte, 0", compile_bytes(rule, sizeof rule, sizeof out), ZANKEZURT_RULE_SYNTAX);
    expect("its place", detail, strlen(rule));

    expect_no_rule("", ZANKEZURT_RULE_SYNTAX, 0);
    expect_no_rule("(m0 or", ZANKEZURT_RULE_SYNTAX, 6);
    expect_no_rule("(m0 or m00)", ZANKEZURT_RULE_SYNTAX, 9);
    expect_no_rule("(m0 since[5,3", ZANKEZURT_RULE_SYNTAX, 13);
    expect_no_rule("m1", ZANKEZURT_RULE_LIMIT, 1);
    expect_no_rule("(m0 since[2000,3", ZANKEZURT_RULE_LIMIT, 10);
    expect_no_rule("(m0 since[2000,3] m0)", ZANKEZURT_RULE_LIMIT, 9);
    expect_no_rule(repeated("(", 32, ""), ZANKEZURT_RULE_SYNTAX, 32);
    expect_no_rule(repeated("(", 33, ""), ZANKEZURT_RULE_LIMIT, 32);
    expect_no_rule(repeated("not ", 64, "x"), ZANKEZURT_RULE_LIMIT, 256);
    expect_no_rule(repeated("not ", 63, "x"), ZANKEZURT_RULE_SYNTAX, 252);

    detail = 1;
    expect("no proposition, and no rule", zankezurt_compile_rule(NULL, 0, 0, 1, 1, out, 0, &detail), ZANKEZURT_BAD_HEADING);
    expect("its place", detail, 0);
    expect("17 components", zankezurt_compile_rule(NULL, 0, 1, 17, 1, out, 0, &detail), ZANKEZURT_BAD_HEADING);
    expect("very many minutes", zankezurt_compile_rule(NULL, 0, 1, 1, SIZE_MAX, out, 0, &detail), ZANKEZURT_BAD_HEADING);
}

/* A number more than a policy can have rules, and what each holds before a call. */
enum { REACHES = ZANKEZURT_MOST_RULES + 1, UNWRITTEN = 0x5AA5 };
static uint16_t reaches[REACHES];

/* Asks for the reaches under a policy, with room for so many. */
static uint8_t ask_reaches(const uint8_t *bytes, size_t length, size_t room)
{
    for (size_t i = 0; i < REACHES; i++)
        reaches[i] = UNWRITTEN;
    return zankezurt_rule_reaches(bytes, length, reaches, room, &detail);
}

/* The buffer holds these numbers, and after them what it held. */
static void expect_reaches(const char *what, const uint16_t *numbers, size_t count)
{
    for (size_t i = 0; i < REACHES; i++)
        expect(what, reaches[i], i < count ? numbers[i] : UNWRITTEN);
}

/* A policy is refused with this number at this place, whatever room there is, and nothing is written. */
static void expect_no_reaches(const char *what, const uint8_t *bytes, size_t length, uint8_t refusal, size_t at)
{
    for (size_t room = 0; room <= REACHES; room++) {
        detail = SIZE_MAX;
        expect(what, ask_reaches(bytes, length, room), refusal);
        expect("its place", detail, at);
        expect_reaches("a buffer for what is refused", NULL, 0);
    }
}

/* Three rules: true, mark 0 within the next 2 minutes, and this always from 0 to 1,023 minutes on. */
static void write_reaches(void)
{
    static const uint8_t three[] = {0x01, 0x01, 0x04, 0x00, 0x04, 0x20, 0x01, 0x01, 0x33, 0x0A, 0x01, 0x02, 0x00,
                                    0x33, 0x0B, 0x02, 0xFF, 0x03};
    static const uint16_t expected[] = {0, 2, 1025};
    static const uint8_t no_line[] = {0x01, 0x01, 0x04, 0x00, 0x00}, bad_line[] = {0x01, 0x01, 0x04, 0x00, 0x01, 0x40};
    static const uint8_t no_rule[] = {0x01, 0x01, 0x04, 0x00, 0x01, 0x00};
    uint8_t rules[5 + REACHES] = {0x01, 0x01, 0x04, 0x00, REACHES};

    for (size_t room = 0; room <= REACHES; room++) {
        const int enough = room >= 3;
        detail = SIZE_MAX;
        expect("reaches", ask_reaches(three, sizeof three, room), enough ? ZANKEZURT_ACCEPTED : ZANKEZURT_SHORT_BUFFER);
        expect("how many, or the place", detail, enough ? 3 : 0);
        expect_reaches("a buffer for them", expected, enough ? 3 : 0);
    }
    expect("what looks back", ask_reaches(policy, sizeof policy, 1), ZANKEZURT_ACCEPTED);
    expect("how many", detail, 1);
    expect_reaches("a buffer of one", expected, 1);

    expect_no_reaches("reaches under NULL", NULL, 0, ZANKEZURT_TRUNCATED_POLICY, 0);
    expect_no_reaches("under an empty policy", three, 0, ZANKEZURT_TRUNCATED_POLICY, 0);
    expect_no_reaches("under a policy that is cut", three, 17, ZANKEZURT_TRUNCATED_POLICY, 17);
    expect_no_reaches("under a policy without lines", no_line, sizeof no_line, ZANKEZURT_BAD_HEADING, 4);
    expect_no_reaches("under a bad line", bad_line, sizeof bad_line, ZANKEZURT_BAD_SUBFORMULA, 5);
    expect_no_reaches("under no rule", no_rule, sizeof no_rule, ZANKEZURT_RULE_COUNT, 0);
    memset(rules + 5, 0x20, REACHES);
    expect_no_reaches("under a rule too many", rules, sizeof rules, ZANKEZURT_RULE_COUNT, 0);
    rules[4] = ZANKEZURT_MOST_RULES;
    expect("under the most rules", ask_reaches(rules, sizeof rules - 1, ZANKEZURT_MOST_RULES), ZANKEZURT_ACCEPTED);
    expect("how many", detail, ZANKEZURT_MOST_RULES);
}

/* Keeps the state as it is, or expects it as it was kept. */
static void keep(void) { memcpy(&kept, &state, sizeof state); }
static void expect_kept(const char *what) { expect(what, memcmp(&kept, &state, sizeof state) == 0, 1); }

/* The state was opened under these bytes. */
static void expect_origin(const char *what, const uint8_t *bytes, size_t length)
{
    uint8_t expected[ZANKEZURT_POLICY_LENGTH] = {0};
    memcpy(expected, bytes, length);
    expect(what, memcmp(state.origin, expected, sizeof expected) == 0, 1);
    expect("its extent", state.extent, length);
}

/* Take and packet under a policy are refused, and the state stays as it is. */
static void expect_refused(const char *what, const uint8_t *bytes, size_t length, uint8_t refusal)
{
    keep();
    detail = taken = place = 1;
    expect(what, receive_under(bytes, length), refusal);
    expect("its place", detail, 0);
    expect(what, receive_packet_under(bytes, length), refusal);
    expect("how many were taken", taken, 0);
    expect("its place", place, 0);
    expect_kept("a state that is refused");
}

static void swap_policies(void)
{
    expect("one policy", open_under(policy, sizeof policy), ZANKEZURT_ACCEPTED);
    expect_origin("its state's origin", policy, sizeof policy);
    expect("a take under it", receive_under(policy, sizeof policy), ZANKEZURT_ACCEPTED);
    expect("its verdicts", detail, 1);
    expect_origin("the origin after it", policy, sizeof policy);

    expect_refused("another policy", other, sizeof other, ZANKEZURT_OTHER_POLICY);
    expect_refused("a shorter one", shorter, sizeof shorter, ZANKEZURT_OTHER_POLICY);
    expect_refused("one that is cut", policy, 0, ZANKEZURT_TRUNCATED_POLICY);
    expect("an empty packet", zankezurt_receive_packet(other, sizeof other, NULL, 0, ZANKEZURT_LENT(state), &taken, &place),
           ZANKEZURT_OTHER_POLICY);
    expect("a look, which is lent no origin", look_under(other, sizeof other), ZANKEZURT_ACCEPTED);
    state.numbers[0] = 1;
    expect_refused("knowledge that is not sound", policy, sizeof policy, ZANKEZURT_CORRUPT_KNOWLEDGE);
    expect_refused("and under another policy", other, sizeof other, ZANKEZURT_OTHER_POLICY);
    expect("another policy, opened", open_under(other, sizeof other), ZANKEZURT_ACCEPTED);
    expect_origin("its state's origin", other, sizeof other);
    expect_refused("the first policy now", policy, sizeof policy, ZANKEZURT_OTHER_POLICY);
    expect("a packet under the other", receive_packet_under(other, sizeof other), ZANKEZURT_ACCEPTED);
    expect("how many were taken", taken, 2);
    keep();
    expect("a policy that is cut, opened", open_under(policy, 12), ZANKEZURT_TRUNCATED_POLICY);
    expect_kept("the state under the other");
    expect("a shorter policy, opened", open_under(shorter, sizeof shorter), ZANKEZURT_ACCEPTED);
    expect_origin("its state's origin", shorter, sizeof shorter);
}

static void damage_origins(void)
{
    static const uint16_t extents[] = {0, 1, 12, 14, 13 + 256, 517, 65535};

    expect("a policy", open_under(policy, sizeof policy), ZANKEZURT_ACCEPTED);
    for (size_t at = 0; at < sizeof state.origin; at++) {
        state.origin[at] ^= 0x80;
        expect_refused("a damaged byte", policy, sizeof policy, ZANKEZURT_OTHER_POLICY);
        state.origin[at] ^= 0x80;
    }
    for (size_t i = 0; i < sizeof extents / sizeof *extents; i++) {
        state.extent = extents[i];
        expect_refused("a damaged extent", policy, sizeof policy, ZANKEZURT_OTHER_POLICY);
    }
    state.extent = sizeof policy;

    keep();
    expect("opening with 516 bytes", open_cut(other, sizeof other, ZANKEZURT_LENT(state)), ZANKEZURT_BUFFER_SIZE);
    expect("a take with them", receive_cut(policy, sizeof policy, ZANKEZURT_LENT(state)), ZANKEZURT_BUFFER_SIZE);
    expect("a packet with them", receive_packet_cut(policy, sizeof policy, ZANKEZURT_LENT(state)), ZANKEZURT_BUFFER_SIZE);
    expect("a take of another policy with them", receive_cut(other, sizeof other, ZANKEZURT_LENT(state)), ZANKEZURT_BUFFER_SIZE);
    expect_kept("the state");
    expect("a take into the state", receive_under(policy, sizeof policy), ZANKEZURT_ACCEPTED);
}

int main(void)
{
    static const uint8_t alive[] = {0x10}, packet[] = {0x10, 0x10, 0x00, 0x10};

    expect("a policy that is NULL", open_under(NULL, 0), ZANKEZURT_TRUNCATED_POLICY);
    expect("a look under it", look_under(NULL, 0), ZANKEZURT_TRUNCATED_POLICY);
    expect("a policy", open_under(policy, sizeof policy), ZANKEZURT_ACCEPTED);
    expect("a look", look_under(policy, sizeof policy), ZANKEZURT_ACCEPTED);

    detail = 1;
    expect("a message that is NULL", receive(NULL, 0), ZANKEZURT_TRUNCATED_MESSAGE);
    expect("its place", detail, 0);
    expect("an empty message", receive(alive, 0), ZANKEZURT_TRUNCATED_MESSAGE);
    expect("a message", receive(alive, sizeof alive), ZANKEZURT_ACCEPTED);

    taken = place = 1;
    expect("a packet that is NULL", receive_packet(NULL, 0), ZANKEZURT_ACCEPTED);
    expect("how many it has", taken, 0);
    expect("its place", place, 0);
    expect("an empty packet", receive_packet(packet, 0), ZANKEZURT_ACCEPTED);
    place = 1;
    expect("a packet of two", receive_packet(packet, 2), ZANKEZURT_ACCEPTED);
    expect("how many were taken", taken, 2);
    expect("its place", place, 0);
    expect("a packet with a bad one", receive_packet(packet, sizeof packet), ZANKEZURT_BAD_MESSAGE);
    expect("how many were taken before it", taken, 2);
    expect("its place", place, 2);

    swap_policies();
    damage_origins();
    write_policies();
    write_kinds();
    write_messages();
    compile_rules();
    write_reaches();

    expect("the archive's version", zankezurt_version(), ZANKEZURT_VERSION);
    printf("version %d\n", ZANKEZURT_VERSION);
    return 0;
}

/* The calls of the proved runtime monitor for C, on x86-64 Linux: link libmonitor_c.a, which `tools/build monitor_c` writes.

   A call gives 0, or the number of its refusal, and writes *detail: the place of a refusal (0 where it has none), how many
   verdicts stand after zankezurt_receive, the verdict that zankezurt_lookup shows, the length of what zankezurt_encode_policy,
   zankezurt_encode_message or zankezurt_compile_rule wrote, how many numbers zankezurt_rule_reaches wrote, 0 after zankezurt_open.
   zankezurt_receive_packet writes *taken and *place instead. Nothing is asked of what the bytes, buffers and numbers hold, nor of
   lengths, and a refused call changes no buffer and no *extent; of a packet this is meant of each message, and those taken before the
   refusal remain taken.

   What C itself asks of a caller: each pointer is aligned for its type and points to as many elements as its length says, fields to
   64 lines, extent, detail, taken and place to one number; a policy, message, packet or text of length 0 may be NULL, a buffer (out
   too, even of length 0), fields, extent, detail, taken and place may not; nothing that a call may write (the whole lent state, out,
   *detail, *taken and *place) overlaps anything else that it is lent. So the policy that stands in a state's origin may not be lent
   from there together with that state, tempting as it is: the policy has memory of its own. No pointer is kept after a call.
   docs/EMBEDDING.md has stack, time, threads and power cuts. */
#ifndef ZANKEZURT_H
#define ZANKEZURT_H

#include <stddef.h>
#include <stdint.h>

/* The version of this header; zankezurt_version tells that of the archive. */
#define ZANKEZURT_VERSION_MAJOR 0
#define ZANKEZURT_VERSION_MINOR 2
#define ZANKEZURT_VERSION_PATCH 0
#define ZANKEZURT_VERSION (10000 * ZANKEZURT_VERSION_MAJOR + 100 * ZANKEZURT_VERSION_MINOR + ZANKEZURT_VERSION_PATCH)

#ifdef __cplusplus
extern "C" {
#endif

/* Why a call was turned away. Six reasons have a place, a byte of the policy, message or text of a rule, or its length. In a packet 7,
   8 and 9 have one, counted from its start: 7 the packet's length, 8 and 9 the message's first byte. Where 2, 3, 4 and 8 are of
   numbers that are to be written, none has. */
enum zankezurt_refusal {
    ZANKEZURT_ACCEPTED = 0,
    ZANKEZURT_TRUNCATED_POLICY = 1, /* the policy ends early, or bytes follow its last line; its length, or the first extra byte */
    ZANKEZURT_BAD_HEADING = 2,      /* a heading number out of range; the field's first byte */
    ZANKEZURT_BAD_SUBFORMULA = 3,   /* a line breaks a rule of the format; its map byte */
    ZANKEZURT_RULE_COUNT = 4,       /* no rule, or more than 8 */
    ZANKEZURT_BUFFER_SIZE = 5,      /* a buffer is not of its exact size */
    ZANKEZURT_CORRUPT_KNOWLEDGE = 6, /* numbers and facts are not sound */
    ZANKEZURT_TRUNCATED_MESSAGE = 7, /* the message ends early, or bytes follow; its length, or the first extra byte */
    ZANKEZURT_BAD_MESSAGE = 8,      /* the message breaks a rule of the format or a range of the policy */
    ZANKEZURT_CONFLICT = 9,         /* no run of the components agrees with what is known and the message */
    ZANKEZURT_OUT_OF_RANGE = 10,    /* a look at a rule or minute that the policy does not have */
    ZANKEZURT_SHORT_BUFFER = 11,    /* the buffer is shorter than what is to be written */
    ZANKEZURT_OTHER_POLICY = 12,    /* the state was opened under another policy */
    ZANKEZURT_RULE_SYNTAX = 13,     /* the text is no rule; the first byte with which no rule can go on, or the text's length */
    ZANKEZURT_RULE_LIMIT = 14       /* too much rule: more than 32 open brackets, a number past its range, a 65th term, an interval with
                                       a above b; the bracket, the first digit, where the term would start, the "[" */
};

/* What the verdict sheet shows: blank, kept or broken. */
enum zankezurt_verdict {
    ZANKEZURT_UNKNOWN = 0,
    ZANKEZURT_SATISFIED = 1,
    ZANKEZURT_VIOLATED = 2
};

/* Lengths of buffers, in elements, into which everything can be written. */
#define ZANKEZURT_POLICY_LENGTH 517 /* bytes; no policy is longer */
#define ZANKEZURT_MESSAGE_LENGTH 14 /* bytes; no message is longer */
#define ZANKEZURT_MOST_RULES 8      /* numbers, one for each rule; no policy has more */

/* The exact lengths of four buffers, in elements, from the sizes of the policy. The fifth, origin, always has
   ZANKEZURT_POLICY_LENGTH bytes. */
#define ZANKEZURT_NUMBERS_LENGTH(components, minutes) ((size_t)(components) * ((size_t)(minutes) + 1))
#define ZANKEZURT_FACTS_LENGTH(minutes) (2 * (size_t)(minutes))
#define ZANKEZURT_VALUATION_LENGTH(subformulas, minutes) ((size_t)(subformulas) * (size_t)(minutes))
#define ZANKEZURT_VERDICTS_LENGTH(rules, minutes) ((size_t)(rules) * (size_t)(minutes))

/* The type of a state, where the sizes of the policy are constants: buffers of their exact lengths, and a number. */
#define ZANKEZURT_STATE(components, minutes, subformulas, rules)                                                                 \
    struct {                                                                                                                     \
        uint16_t numbers[ZANKEZURT_NUMBERS_LENGTH(components, minutes)];                                                         \
        uint32_t facts[ZANKEZURT_FACTS_LENGTH(minutes)];                                                                         \
        uint8_t valuation[ZANKEZURT_VALUATION_LENGTH(subformulas, minutes)];                                                     \
        uint8_t verdicts[ZANKEZURT_VERDICTS_LENGTH(rules, minutes)];                                                             \
        uint8_t origin[ZANKEZURT_POLICY_LENGTH]; /* the policy that it was opened under, and then zeros */                       \
        uint16_t extent;                         /* that policy's length */                                                      \
    }

/* Such a state as zankezurt_open, zankezurt_receive and zankezurt_receive_packet want it: each buffer and its length, and where the
   number stands. */
#define ZANKEZURT_LENT(state)                                                                                                    \
    (state).numbers, sizeof (state).numbers / sizeof (uint16_t), (state).facts, sizeof (state).facts / sizeof (uint32_t),        \
        (state).valuation, sizeof (state).valuation, (state).verdicts, sizeof (state).verdicts,                                  \
        (state).origin, sizeof (state).origin, &(state).extent

/* The lent state among the parameters of the three calls, which those arguments stand for. A function of one's own that has the same
   parameters hands them on as ZANKEZURT_STATE_ARGUMENTS. */
#define ZANKEZURT_STATE_PARAMETERS                                                                                               \
    uint16_t *numbers, size_t numbers_length,                                                                                    \
    uint32_t *facts, size_t facts_length,                                                                                        \
    uint8_t *valuation, size_t valuation_length,                                                                                 \
    uint8_t *verdicts, size_t verdicts_length,                                                                                   \
    uint8_t *origin, size_t origin_length,                                                                                       \
    uint16_t *extent
#define ZANKEZURT_STATE_ARGUMENTS                                                                                                \
    numbers, numbers_length, facts, facts_length, valuation, valuation_length, verdicts, verdicts_length, origin, origin_length, \
        extent

/* The kinds of a line. The last six are abbreviations: each has the same value, at every minute, as what it stands for. */
enum zankezurt_kind {
    ZANKEZURT_KIND_TRUE = 0,
    ZANKEZURT_KIND_PROPOSITION = 1,
    ZANKEZURT_KIND_NOT = 2,
    ZANKEZURT_KIND_OR = 3,
    ZANKEZURT_KIND_SINCE = 4,
    ZANKEZURT_KIND_UNTIL = 5,
    ZANKEZURT_KIND_AND = 6,          /* not (not first or not second) */
    ZANKEZURT_KIND_IMPLIES = 7,      /* not first, or second */
    ZANKEZURT_KIND_ONCE = 8,         /* true since first */
    ZANKEZURT_KIND_HISTORICALLY = 9, /* not once not first */
    ZANKEZURT_KIND_EVENTUALLY = 10,  /* true until first */
    ZANKEZURT_KIND_ALWAYS = 11       /* not eventually not first */
};

/* One line of a policy, as zankezurt_encode_policy wants it: what its kind has no use for is 0. docs/FORMAT.md has each kind's fields
   and the ranges. */
struct zankezurt_line {
    uint16_t kind, first, second, lower, upper;
    uint16_t rule; /* 0 no, any other number yes */
};

/* Opens the lent state under a policy, whatever it held: nothing is known, every verdict is blank, and origin and extent hold the
   policy. */
uint8_t zankezurt_open(const uint8_t *policy, size_t policy_length,
                       ZANKEZURT_STATE_PARAMETERS,
                       size_t *detail);

/* Takes one message, of any bytes, into the lent state. The policy is the one that the state was opened under; else 12 is given. */
uint8_t zankezurt_receive(const uint8_t *policy, size_t policy_length,
                          const uint8_t *message, size_t message_length,
                          ZANKEZURT_STATE_PARAMETERS,
                          size_t *detail);

/* Takes the messages of a packet, which stand end to end, until the packet ends or one is refused; leaves the lent state as taking
   them one by one would. *taken is how many were taken, and *place the refusal's place, 0 where none was refused. An empty packet
   takes none, but policy and state are checked. */
uint8_t zankezurt_receive_packet(const uint8_t *policy, size_t policy_length,
                                 const uint8_t *packet, size_t packet_length,
                                 ZANKEZURT_STATE_PARAMETERS,
                                 size_t *taken, size_t *place);

/* The verdict of a rule at a minute, from the lent verdict sheet. A sheet does not tell the policy that it was worked under. */
uint8_t zankezurt_lookup(const uint8_t *policy, size_t policy_length,
                         const uint8_t *verdicts, size_t verdicts_length,
                         size_t rule, size_t minute,
                         size_t *detail);

/* Writes a policy from its sizes and the first `lines` of fields (the others are not looked at) at the start of out; a longer out
   keeps its rest. Refused are, in this order, a size or number of lines out of range (2), a bad line (3), no rule or more than 8 (4)
   and a short buffer (11). */
uint8_t zankezurt_encode_policy(size_t propositions, size_t components, size_t minutes, size_t lines,
                                const struct zankezurt_line fields[64],
                                uint8_t *out, size_t out_length,
                                size_t *detail);

/* Writes a message under a policy at the start of out; a longer out keeps its rest. alive is 0 for an observation and any other
   number for an alive, which names nothing. Bit k of named names proposition k, and bit k of values is its value, 0 where it is not
   named. Refused are, in this order, the policy (1 to 4), numbers out of range (8) and a short buffer (11). */
uint8_t zankezurt_encode_message(const uint8_t *policy, size_t policy_length,
                                 size_t component, uint8_t alive, size_t minute, size_t number,
                                 uint32_t named, uint32_t values,
                                 uint8_t *out, size_t out_length,
                                 size_t *detail);

/* Reads a rule typed as text, and writes the policy of these sizes with that one rule at the start of out; a longer out keeps its
   rest. A rule is a term: true, m with the number of a proposition (m7), not term, (term or term), (term and term),
   (term since[a,b] term) or (term until[a,b] term), with one space between words and none elsewhere, and numbers without leading
   zeros. Each term gets a line, in the order in which their texts end. Refused are, in this order, a size out of range (2), no rule
   (13) or too much rule (14), whichever comes first in the text and 14 where both are at one place, and a short buffer (11). */
uint8_t zankezurt_compile_rule(const uint8_t *text, size_t text_length,
                               size_t propositions, size_t components, size_t minutes,
                               uint8_t *out, size_t out_length,
                               size_t *detail);

/* Writes the reach of each rule, how many minutes ahead it looks, in the order of the rules at the start of out, and how many rules
   there are into *detail; a longer out keeps its rest. The reach of true and of a proposition is 0, that of another line the larger of
   its operands', plus upper where it is an until, eventually or always. A minute is a time point if some component observes in it:
   once it is known of every minute whether it is one, and every proposition is known at each, a rule has a verdict at every time
   point t with t + reach below the policy's minutes; at later ones it may stay blank for good. Refused are, in this order, the policy
   (1 to 4) and a short buffer (11). */
uint8_t zankezurt_rule_reaches(const uint8_t *policy, size_t policy_length,
                               uint16_t *out, size_t out_length,
                               size_t *detail);

/* The version of the archive that is linked, counted as ZANKEZURT_VERSION is. */
uint32_t zankezurt_version(void);

/* Nothing is promised of the archive's functions where a pointer is NULL, not even with a length of 0: the language that they are
   compiled from has no such slice. So in C the names of the seven calls that read bytes stand for the functions below, which put an
   address of their own in the place of an empty policy, message, packet or text. */
static inline const uint8_t *zankezurt_bytes(const uint8_t *bytes, size_t length)
{
    static const uint8_t none = 0;
    return length == 0 ? &none : bytes;
}

static inline uint8_t zankezurt_open_bytes(const uint8_t *policy, size_t policy_length,
                                           ZANKEZURT_STATE_PARAMETERS,
                                           size_t *detail)
{
    return zankezurt_open(zankezurt_bytes(policy, policy_length), policy_length, ZANKEZURT_STATE_ARGUMENTS, detail);
}

static inline uint8_t zankezurt_receive_bytes(const uint8_t *policy, size_t policy_length,
                                              const uint8_t *message, size_t message_length,
                                              ZANKEZURT_STATE_PARAMETERS,
                                              size_t *detail)
{
    return zankezurt_receive(zankezurt_bytes(policy, policy_length), policy_length,
                             zankezurt_bytes(message, message_length), message_length, ZANKEZURT_STATE_ARGUMENTS, detail);
}

static inline uint8_t zankezurt_receive_packet_bytes(const uint8_t *policy, size_t policy_length,
                                                     const uint8_t *packet, size_t packet_length,
                                                     ZANKEZURT_STATE_PARAMETERS,
                                                     size_t *taken, size_t *place)
{
    return zankezurt_receive_packet(zankezurt_bytes(policy, policy_length), policy_length,
                                    zankezurt_bytes(packet, packet_length), packet_length, ZANKEZURT_STATE_ARGUMENTS, taken, place);
}

static inline uint8_t zankezurt_lookup_bytes(const uint8_t *policy, size_t policy_length,
                                             const uint8_t *verdicts, size_t verdicts_length,
                                             size_t rule, size_t minute,
                                             size_t *detail)
{
    return zankezurt_lookup(zankezurt_bytes(policy, policy_length), policy_length,
                            verdicts, verdicts_length, rule, minute, detail);
}

static inline uint8_t zankezurt_encode_message_bytes(const uint8_t *policy, size_t policy_length,
                                                     size_t component, uint8_t alive, size_t minute, size_t number,
                                                     uint32_t named, uint32_t values,
                                                     uint8_t *out, size_t out_length,
                                                     size_t *detail)
{
    return zankezurt_encode_message(zankezurt_bytes(policy, policy_length), policy_length, component, alive, minute, number,
                                    named, values, out, out_length, detail);
}

static inline uint8_t zankezurt_compile_rule_bytes(const uint8_t *text, size_t text_length,
                                                   size_t propositions, size_t components, size_t minutes,
                                                   uint8_t *out, size_t out_length,
                                                   size_t *detail)
{
    return zankezurt_compile_rule(zankezurt_bytes(text, text_length), text_length, propositions, components, minutes,
                                  out, out_length, detail);
}

static inline uint8_t zankezurt_rule_reaches_bytes(const uint8_t *policy, size_t policy_length,
                                                   uint16_t *out, size_t out_length,
                                                   size_t *detail)
{
    return zankezurt_rule_reaches(zankezurt_bytes(policy, policy_length), policy_length, out, out_length, detail);
}

#define zankezurt_open zankezurt_open_bytes
#define zankezurt_receive zankezurt_receive_bytes
#define zankezurt_receive_packet zankezurt_receive_packet_bytes
#define zankezurt_lookup zankezurt_lookup_bytes
#define zankezurt_encode_message zankezurt_encode_message_bytes
#define zankezurt_compile_rule zankezurt_compile_rule_bytes
#define zankezurt_rule_reaches zankezurt_rule_reaches_bytes

#ifdef __cplusplus
}
#endif

#endif

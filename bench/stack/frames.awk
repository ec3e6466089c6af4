# Reads `objdump -dr` of the archive and prints, for each call, the most stack that any path through it can take: its arguments beyond the six in
# registers, its frame with the return address, and the deepest of what it calls. A function that is not in the archive (memcpy, memset)
# counts with its return address alone. It stops at whatever it can't bound: recursion but for the one cycle below, a call through a pointer,
# a frame of varying size.

function stop(why) {
    print "stack of " name ": " why > "/dev/stderr"
    stopped = 1
    exit 1
}

function hexadecimal(digits,    i, number) {
    for (i = 1; i <= length(digits); i++)
        number = 16 * number + index("0123456789abcdef", substr(digits, i, 1)) - 1
    return number
}

# the number after 0x in the text
function number_in(text) {
    sub(/^.*0x/, "", text)
    sub(/[^0-9a-f].*$/, "", text)
    return hexadecimal(text)
}

# How often a function may stand on the stack at once. `term` and `group` of rule_parser call each other (the compiler may put the one into the
# other, which then calls itself). `rule` starts `term` with a nesting of 32; `term` hands one less to `group`, and calls none with a nesting of
# 0; `group` hands `term` what it was handed, to one term after the other. So there are at most 33 of `term`, the innermost of which calls no
# `group`, and 32 of `group`; what the innermost calls besides comes on top.
function most(of) {
    return of == "rule_parser::Source::term" ? 33 : of == "rule_parser::Source::group" ? 32 : 1
}

function depth(of,    i, parts, count, below, deepest) {
    if (!(of in frame))
        return 8
    if (open[of] == most(of)) {
        if (most(of) == 1)
            stop("it calls itself, by " of)
        return 0
    }
    open[of]++
    count = split(callees[of], parts, "\n")
    deepest = leaf[of]
    for (i = 2; i <= count; i++) {
        below = depth(parts[i])
        if (below > deepest)
            deepest = below
    }
    open[of]--
    return frame[of] + deepest
}

# what stands on the stack of so many arguments; the stack is aligned to 16 at a call
function passed(arguments) {
    return arguments <= 6 ? 0 : 16 * int((arguments - 6 + 1) / 2)
}

# each callee counts once, however often it is called
function calls_also(callee) {
    if (!((name, callee) in noted))
        callees[name] = callees[name] "\n" callee
    noted[name, callee] = 1
}

calling && !/R_X86_64_PLT32/ { stop("a call without a name") }
calling || (/R_X86_64_PLT32/) {
    callee = $NF
    sub(/[-+]0x[0-9a-f]+$/, "", callee)
    sub(/^\.text\./, "", callee)
    calls_also(callee)
    calling = 0
    next
}

/^[0-9a-f]+ <.*>:$/ {
    name = $0
    sub(/^[0-9a-f]+ </, "", name)
    sub(/>:$/, "", name)
    if (name in frame)
        stop("two functions have its name")
    frame[name] = 8
    leaf[name] = 0
    next
}

/\tcall +\*/ { stop("a call through a pointer") }
# a function's call of itself needs no relocation
/\tcall / && $NF == "<" name ">" { calls_also(name); next }
/\tcall / { calling = 1 }
/\tpush / { frame[name] += 8 }
/\tsub +\$0x[0-9a-f]+,%rsp$/ { frame[name] += number_in($0); next }
/\t(sub|and|lea|mov|enter).*%rsp$/ { stop("a frame of varying size") }
# the red zone: a function may use 128 bytes below its frame
/-0x[0-9a-f]+\(%rsp/ { leaf[name] = 128 }

END {
    if (stopped)
        exit 1
    split("compile_rule 8 encode_message 11 encode_policy 8 lookup 7 open 14 receive 16 receive_packet 17 rule_reaches 5 version 0", calls, " ")
    for (i = 1; i in calls; i += 2) {
        name = "zankezurt_" calls[i]
        if (!(name in frame))
            stop("it is not in the archive")
        print name, passed(calls[i + 1]) + depth(name)
    }
}

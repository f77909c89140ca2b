# Reads a disassembly of the shared library (objdump -d --no-show-raw-insn) and prints, for each exported function, the most
# stack that any path through its code takes: all frames on the deepest chain of calls, return addresses included. It fails if
# that cannot be told: an indirect call, recursion, or a call of another library than memcpy and memset, which count with their
# return address alone. A jump to another function counts as a call. An indirect jump is taken for a jump table, whose places
# are all in the function; it must follow the two instructions that load such a place. Between these three, a register that is not
# used there any more may be loaded from the stack, and any register stored on the stack; between the last two, one may be loaded from
# a register too.
# It also fails if a function takes more than a page without touching the stack in between.

# Notes what is wrong with the current function: the first thing found. It matters only if an exported function calls it.
function fail(why) { if (!(name in wrong)) wrong[name] = why }

# The number at the start of an operand like $0x1b8,%rsp.
function immediate(operand, value, k) {
    sub(/^\$0x/, "", operand); sub(/,.*/, "", operand)
    if (sub(/^ffffffff/, "", operand)) value = -1
    for (k = 1; k <= length(operand); k++) value = 16 * value + index("123456789abcdef", substr(operand, k, 1))
    return value + 0
}

# Takes bytes of the stack, or gives them back if they are negative.
function take(bytes) {
    extra += bytes
    if (extra < 0) extra = 0
    untouched += bytes
    if (untouched < 0) untouched = 0
    require_touched(0)
}

# The stack may be used up to this many bytes below its pointer.
function require_touched(below) {
    if (untouched + below > 4096) fail("a page is not touched")
}

# The most stack that a function takes, with its return address.
function most(f, deepest, callees, n, k, below) {
    if (f in done) return done[f]
    if (f in open) wrong[f] = "recursion"
    else if (f ~ /@plt$/) wrong[f] = "in another library"
    else if (!(f in frame)) wrong[f] = "not in the disassembly"
    if (f in wrong) { print "frames: " f ": " wrong[f] > "/dev/stderr"; failed = 1; return 0 }
    open[f]
    n = split(calls[f], callees, "\n")
    for (k = 1; k < n; k++) {
        below = callees[k] ~ /^mem(cpy|set)@plt$/ ? 8 : most(callees[k])
        if (below > deepest) deepest = below
    }
    delete open[f]
    return done[f] = 8 + frame[f] + deepest
}

/^[0-9a-f]+ <.*>:$/ {
    name = $0
    sub(/^[0-9a-f]+ </, "", name); sub(/>:$/, "", name)
    frame[name] = fixed = extra = untouched = untouched_by_prologue = 0
    prologue = 1
    looped = stepped = 0
    last = before_last = ""
    next
}

!/^ *[0-9a-f]+:\t/ { next }

{
    sub(/\t((notrack|bnd|data16|addr32|rex\.W) +)+/, "\t")
    instruction = $2; operand = $3
    if (instruction ~ /^(call|jmp|ret|push|pop|leave)q$/) sub(/q$/, "", instruction)
}

# A whole page must be touched at once.
instruction == "movq" && operand == "$0x0,(%rsp)" { untouched = 0 }
untouched >= 4096 { fail("a page is not touched") }

# What a loop takes, step by step: %r11 is where it ends. Each step must be touched at once. Here are all steps but the first, which is taken
# below as any other.
stepped && !(instruction == "movq" && operand == "$0x0,(%rsp)") { fail("a page is not touched") }
{ stepped = 0 }
instruction == "sub" && operand ~ /^\$0x[0-9a-f]+,%r11$/ && last == "mov %rsp,%r11" { looped = immediate(operand) }
looped && instruction == "sub" && operand ~ /^\$0x[0-9a-f]+,%rsp$/ { extra += looped - immediate(operand); looped = 0; stepped = 1 }

instruction == "push" { take(8); untouched = 0 }
instruction == "pop" { take(-8) }
operand ~ /^\$0x[0-9a-f]+,%rsp$/ && instruction == "sub" { take(immediate(operand)) }
operand ~ /^\$0x[0-9a-f]+,%rsp$/ && instruction == "add" { take(-immediate(operand)) }

# Anything else that sets the stack pointer.
operand ~ /(^|,)%([re]?sp|spl)$/ && instruction !~ /^(push|cmp|test)$/ && (operand !~ /^\$0x/ || instruction !~ /^(sub|add)$/) ||
instruction ~ /^(leave|enter)$/ || instruction == "xchg" && operand ~ /^%[re]?sp,/ {
    fail("the stack is changed by " instruction)
}

# The prologue is what comes before the first other instruction.
prologue && instruction !~ /^(push|sub|mov|movq|cmp|jne)$/ {
    fixed = extra; extra = 0; prologue = 0
    untouched_by_prologue = untouched
}
fixed + extra > frame[name] { frame[name] = fixed + extra }

# A function that calls none may use bytes below the stack pointer.
match($0, /-0x[0-9a-f]+\(%rsp/) {
    below = immediate("$" substr($0, RSTART + 1, RLENGTH - 6))
    require_touched(below)
    if (fixed + extra + below > frame[name]) frame[name] = fixed + extra + below
}
instruction == "ret" { extra = 0 }

# Where the code after the prologue has taken nothing more, another path may lead that has touched nothing.
!prologue && extra == 0 { untouched = untouched_by_prologue }

# A jump table holds offsets from its own start. An address that is based on %r13 or %rbp always has a displacement, here 0.
instruction ~ /^j/ && operand ~ /^\*/ {
    place = substr(operand, 2)
    start = last; sub(/^add /, "", start); sub(/,.*/, "", start)
    if (last != "add " start "," place || before_last !~ ("^movslq (0x0)?\\(" start ",%[a-z0-9]+,4\\)," place "$"))
        fail("an indirect jump that is no jump table")
}
instruction == "call" && operand ~ /^\*/ { fail("an indirect call") }
instruction == "call" { require_touched(8) }

instruction ~ /^(call|j.*)$/ && operand !~ /^\*/ {
    callee = match($0, / <.*>$/) ? substr($0, RSTART + 2, RLENGTH - 3) : "?"
    if (sub(/\+0x[0-9a-f]+$/, "", callee) && callee != name) fail("a jump into " callee)
    if (instruction == "call" || callee != name) calls[name] = calls[name] callee "\n"
}

# Whether a register is loaded that a jump by a table doesn't use any more: from the stack; or from a register, once the table's start is added.
function loads_another(register) {
    if (instruction != "mov" || operand !~ /^((0x[0-9a-f]+)?\(%rsp\)|%r([abcd]x|[ds]i|bp|[89]|1[0-5])),%r([abcd]x|[ds]i|bp|[89]|1[0-5])$/) return 0
    register = operand; sub(/.*,/, "", register)
    if (last !~ /^add / && (operand ~ /^%/ || index(last, "(" register ","))) return 0
    return last !~ (register "$")
}
# Whether a register is stored on the stack, which changes no register.
function stores_a_register() {
    return instruction == "mov" && operand ~ /^%r([abcd]x|[ds]i|bp|[89]|1[0-5]),(0x[0-9a-f]+)?\(%rsp\)$/
}
!loads_another() && !stores_a_register() { before_last = last; last = instruction " " operand }

END {
    for (f in frame) if (f ~ /^format3_[a-z_]+$/) print f, most(f)
    exit failed
}

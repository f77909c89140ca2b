#!/usr/bin/env bash
# shellcheck disable=SC2016
# tests/wrong_stacks.sh FOLDER: tests that stack.sh refuses libraries that take too much stack, or whose stack it cannot tell,
# and headers with wrong limits, each for the right reason. It assembles a small library with the functions of format3.h, which
# must pass; then each change to it, to what is said to be measured, or to FOLDER's header must be refused.
set -euo pipefail
folder=$(realpath "$1")
cd "$(dirname "$0")"
scratch=$(mktemp -d)
trap 'rm -rf "$scratch"' EXIT
right=$scratch/right wrong=$scratch/wrong
mkdir -p "$right"/{include,lib}
cp "$folder/include/format3.h" "$right/include/"

cat > "$right/library.s" <<'ASSEMBLY'
    .text
shallow:
    ret

deep:
    push %rbx
    sub $0x7d0,%rsp
    call memcpy@plt
    add $0x7d0,%rsp
    pop %rbx
    ret

    # Three steps are taken by a loop, one after it.
    .globl format3_read_slice
format3_read_slice:
    push %rbp
    mov %rsp,%r11
    sub $0x2400,%r11
1:  sub $0xc00,%rsp
    movq $0x0,(%rsp)
    cmp %r11,%rsp
    jne 1b
    sub $0xc00,%rsp # the fourth step
    movq $0x0,(%rsp) # its touch
    sub $0x600,%rsp
    call deep
    add $0x3600,%rsp
    pop %rbp
    ret

    .globl format3_reconstruct
format3_reconstruct:
    sub $0x8,%rsp
    push %rax
    call deep
    add $0x10,%rsp
    ret

    .globl format3_reconstruct_small
format3_reconstruct_small:
    push %rax
    call deep
    pop %rax
    ret

    .globl format3_transform
format3_transform:
    add $-0x80,%rsp
    lea places(%rip),%rax
    movslq (%rax,%rdi,4),%rcx
    add %rax,%rcx
    jmp *%rcx
2:  sub $-0x80,%rsp
    ret

    .globl format3_vector
format3_vector:
    test %edi,%edi
    je shallow
    mov %rax,-0x8(%rsp)
    ret

    .globl format3_api_version, format3_encode_vector, format3_intra_coefficient, format3_non_intra_coefficient
    .globl format3_read_header, format3_show_record
format3_api_version:
    ret
format3_encode_vector:
    ret
format3_intra_coefficient:
    ret
format3_non_intra_coefficient:
    ret
format3_read_header:
    lea others(%rip),%r13
    movslq (%r13,%rdi,4),%rdx
    add %r13,%rdx
    mov 0x8(%rsp),%r13
    mov %rdi,0x10(%rsp)
    mov %rdi,%r9
    jmp *%rdx
3:  ret
format3_show_record:
    ret

    .section .rodata
places:
    .long 2b - places
others:
    .long 3b - others
ASSEMBLY

cat > "$right/measured" <<'LINES'
stack: format3_api_version 8 bytes
stack: format3_encode_vector 8 bytes
stack: format3_intra_coefficient 8 bytes
stack: format3_non_intra_coefficient 8 bytes
stack: format3_read_header 8 bytes
stack: format3_read_slice, accepted 15864 bytes
stack: format3_reconstruct, accepted 2048 bytes
stack: format3_reconstruct_small, accepted 2040 bytes
stack: format3_show_record 8 bytes
stack: format3_transform 136 bytes
stack: format3_vector 24 bytes
LINES

# Assembles the library in this folder and runs stack.sh on it.
passes() {
    as "$1/library.s" -o "$1/library.o" || exit
    ld -shared "$1/library.o" -o "$1/lib/libformat3.so" || exit
    ./stack.sh "$1" "$1/measured" > "$scratch/printed" 2>&1
}

# What stack.sh works out for the right library is what the lines above say.
if ! passes "$right" || ! diff <(sed 's/, accepted//' "$right/measured") <(awk '{ print $1, $2, $3, $4 }' "$scratch/printed"); then
    echo "wrong_stacks: the right library was refused:" >&2
    cat "$scratch/printed" >&2
    exit 1
fi

# After this command, stack.sh must print a line that matches WORDS and fail. WHAT says what is wrong.
changes=0
require_refused() { # WORDS WHAT COMMAND..
    if "${@:3}" || ! grep -qE "$1" "$scratch/printed"; then
        echo "wrong_stacks: $2 was not refused by: $1" >&2
        cat "$scratch/printed" >&2
        exit 1
    fi
    changes=$((changes + 1))
}

# stack.sh must refuse the right library with FILE changed by this edit.
require_edit_refused() { # WORDS FILE EDIT
    rm -rf "$wrong"
    cp -R "$right" "$wrong"
    sed -Ei "$3" "$wrong/$2"
    if cmp -s "$right/$2" "$wrong/$2"; then
        echo "wrong_stacks: $3 changes nothing of $2" >&2
        exit 1
    fi
    require_refused "$1" "$3" passes "$wrong"
}

# The words, a file and an edit.
edits=(
    # What is called.
    '^frames: deep: recursion$' library.s 's/call memcpy@plt/call deep/'
    '^frames: deep: recursion$' library.s '/^shallow:/a \    call deep
        s/call memcpy@plt/call shallow/'
    '^frames: deep: an indirect call$' library.s 's/call memcpy@plt/call *%rax/'
    '^frames: deep: an indirect call$' library.s 's/call memcpy@plt/call *0x8(%rax)/'
    '^frames: memmove@plt: in another library$' library.s 's/memcpy/memmove/'
    '^frames: memmove@plt: in another library$' library.s 's/je shallow/jmp memmove@plt/'
    '^frames: format3_vector: a jump into deep$' library.s 's/je shallow/je deep + 1/'
    '^frames: format3_reconstruct: a jump into deep$' library.s 's/call deep/call deep + 1/'
    '^frames: format3_transform: an indirect jump' library.s '/^ *add %rax,%rcx$/d'
    '^frames: format3_transform: an indirect jump' library.s 's/jmp \*%rcx/jmp *%rdx/'
    '^frames: format3_transform: an indirect jump' library.s 's/movslq \(%rax/movslq (%rdx/'
    '^frames: format3_read_header: an indirect jump' library.s 's/movslq \(%r13/movslq 4(%r13/'
    '^frames: format3_read_header: an indirect jump' library.s 's/add %r13,%rdx/mov %rdi,%r13\n&/'
    '^frames: format3_read_header: an indirect jump' library.s 's/add %r13,%rdx/mov %rdi,%r9\n&/'
    '^frames: format3_read_header: an indirect jump' library.s 's/add %r13,%rdx/mov 0x8(%rsp),%r13\n&/'
    '^frames: format3_read_header: an indirect jump' library.s 's/mov 0x8\(%rsp\),%r13/mov 0x8(%rsp),%rdx/'
    '^frames: format3_read_header: an indirect jump' library.s 's/mov 0x8\(%rsp\),%r13/mov 0x8(%rsp),%edx/'
    '^frames: format3_read_header: an indirect jump' library.s 's/mov 0x8\(%rsp\),%r13/mov %r13,%rdx/'
    '^frames: format3_read_header: an indirect jump' library.s 's/mov %rdi,0x10\(%rsp\)/mov %rdi,%rdx/'
    '^frames: format3_read_header: an indirect jump' library.s 's/mov %rdi,0x10\(%rsp\)/mov %rdi,0x10(%rdx)/'
    '^frames: format3_read_header: an indirect jump' library.s 's/mov %rdi,%r9/mov %rdi,%rdx/'
    '^frames: format3_read_header: an indirect jump' library.s 's/mov %rdi,%r9/mov %edi,%edx/'
    '^frames: format3_read_header: an indirect jump' library.s 's/mov %rdi,%r9/add %rdi,%rdx/'
    '^frames: format3_vector: an indirect jump' library.s 's/je shallow/notrack jmp *%rcx/'
    'format3_vector .*on any path  TOO MUCH$' library.s 's/je shallow/je deep/'
    'format3_vector .*on any path  TOO MUCH$' library.s 's/je shallow/jmp deep/'

    # How the stack is taken.
    '^frames: format3_read_slice: a page is not touched$' library.s '/# its touch/d'
    '^frames: format3_read_slice: a page is not touched$' library.s '/^ *movq \$0x0,\(%rsp\)$/d'
    '^frames: format3_read_slice: a page is not touched$' library.s 's/movq \$0x0,\(%rsp\) # its/mov %rax,%rdx # no/'
    '^frames: format3_read_slice: a page is not touched$' library.s 's/1:  sub \$0xc00,%rsp/&\n mov %rax,%rdx/'
    '^frames: format3_read_slice: a page is not touched$' library.s 's/sub \$0xc00(.*fourth)/sub $0x1008\1/'
    '^frames: format3_read_slice: a page is not touched$' library.s '/its touch/d; s/sub \$0xc00.*fourth step/sub $0xbf8,%rsp\n sub $0xbf8,%rsp/'
    '^frames: format3_read_slice: a page is not touched$' library.s 's/sub \$0x600,%rsp/sub $0xf00,%rsp\n mov %rax,%rdx\n&/'
    '^frames: format3_read_slice: a page is not touched$' library.s 's/sub \$0x600,%rsp/sub $0xff8,%rsp\n mov %rax,-0x10(%rsp)/'
    '^frames: format3_read_slice: a page is not touched$' library.s 's/sub \$0x600,%rsp/sub $0xff0,%rsp\n lea (%rdi),%rax\n sub $0xc,%rsp/'
    '^frames: format3_read_slice: a page is not touched$' library.s 's/sub \$0x600,%rsp/sub $0xff0,%rsp\n je 3f\n push %rax\n pop %rax\n3: sub $0x20,%rsp/'
    '^frames: format3_read_slice: the stack is changed by lea$' library.s 's/sub \$0x600,%rsp/&\n lea -0x8000(%rbp),%rsp/'
    '^frames: format3_read_slice: the stack is changed by mov$' library.s 's/sub \$0x600,%rsp/&\n mov %rax,%rsp/'
    '^frames: format3_read_slice: the stack is changed by and$' library.s 's/sub \$0x600,%rsp/&\n and $-64,%rsp/'
    '^frames: format3_read_slice: the stack is changed by sub$' library.s 's/sub \$0x600,%rsp/&\n sub %rax,%rsp/'
    '^frames: format3_read_slice: the stack is changed by leave$' library.s 's/^ *pop %rbp/leave/'
    'format3_reconstruct .*on any path  TOO MUCH$' library.s 's/sub \$0x8,%rsp/sub $0xf00,%rsp/'
    'format3_reconstruct_small .*on any path  TOO MUCH$' library.s '/^format3_reconstruct_small:/a \    sub $0xf00,%rsp'

    'format3_read_slice .*on any path  TOO MUCH$' library.s 's/sub \$0x2400,%r11/sub $0x4800,%r11/'

    # Which functions there are.
    '^stack: format3_vector is not worked out$' library.s 's/format3_vector/vector/'
    '^stack: format3_vector is not worked out$' library.s 's/format3_/other_/'
    '^stack: format3_vector is not measured$' measured '/format3_vector/d'
    '^stack: format3_vector is not measured$' measured d
    '^stack: format3_more is not measured$' library.s 's/^shallow:/.globl format3_more\nformat3_more:\n&/'
    '^stack: format3_reconstruct_small is not worked out$' library.s 's/format3_reconstruct_small/small/'
    '^stack: format3_reconstruct_small is not measured$' measured '/format3_reconstruct_small/d'
    '^stack: format3_encode_vector is not worked out$' library.s 's/format3_encode_vector/encode_vector/'
    '^stack: format3_encode_vector is not measured$' measured '/format3_encode_vector/d'
    '^stack: format3_vector takes more than frames.awk has found$' measured 's/(format3_vector) 24/\1 89/'

    # The limits.
    'format3_read_slice .*on any path  TOO MUCH$' include/format3.h 's/(STACK_READ_SLICE =) [0-9]+/\1 15863/'
    'format3_reconstruct .*on any path  TOO MUCH$' include/format3.h 's/(STACK_RECONSTRUCT =) [0-9]+/\1 2047/'
    'format3_reconstruct_small .*on any path  TOO MUCH$' include/format3.h 's/(STACK_RECONSTRUCT_SMALL =) [0-9]+/\1 2039/'
    'format3_transform .*on any path  TOO MUCH$' include/format3.h 's/(STACK_TRANSFORM =) [0-9]+/\1 135/'
    'format3_vector .*on any path  TOO MUCH$' include/format3.h 's/(STACK_DEFAULT =) [0-9]+/\1 23/'
)
for ((k = 0; k < ${#edits[@]}; k += 3)); do
    require_edit_refused "${edits[@]:k:3}"
done

# Limits below what is measured. The difference is for the compiler; the machine code is compared with the number before it.
measured_passes() {
    ./stack.sh "$1" > "$scratch/printed" 2>&1
}
rm -rf "${wrong:?}/lib"
ln -s "$folder/lib" "$wrong/lib"
for limited in 'TRANSFORM format3_transform' 'RECONSTRUCT_SMALL format3_reconstruct_small, accepted'; do
    sed -E "s/(STACK_${limited%% *} = )([0-9]+)/\1\2 - \2 * 3 \/ 4/" "$folder/include/format3.h" > "$wrong/include/format3.h"
    require_refused "${limited#* } .* calls  TOO MUCH\$" "a limit below what is measured" measured_passes "$wrong"
done
echo "stack: $changes wrong libraries and limits refused"

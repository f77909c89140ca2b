#!/usr/bin/env bash
# tests/header.sh FOLDER: checks the library that ./build-library put into FOLDER. Its header must compile as C and as C++
# without a warning, and declare the functions and structs of the exports' source, with their types and names; the answers,
# limits, coding types and kinds of the crates, with their numbers; and the version of the interface. It must tell the compiler
# which pointers may not be null or overlap, how long the arrays are, and that no answer may be ignored. Both libraries must
# export the functions of the header and nothing else, also for a C++ program.
# Where a check fails, its last line is "format3.h: wrong CHECK".
set -euo pipefail
folder=$(realpath "$1")
cd "$(dirname "$0")/.."
scratch=$(mktemp -d)
trap 'rm -rf "$scratch"' EXIT
header=$folder/include/format3.h
exports=crates/format3_c/src/lib.rt

wrong() {
    echo "format3.h: wrong $1" >&2
    exit 1
}

# ---- from the source

# Rattle types of parameters and fields as C types.
to_c_types() {
    sed -E 's/\busize\b/size_t/g; s/\b([iu])(8|16|32)\b/\1nt\2_t/g; s/\bunt/uint/g'
}

# Rattle names of structs, marked by @, as C names: @PictureResult is struct format3_picture_result.
to_c_structs() {
    sed -E ':again; s/(@\w*[a-z])([A-Z])/\1_\2/; t again; s/@(\w+)/struct format3_\L\1/g'
}

# The exports as C declarations, one per line: a slice is a pointer and a length. A pointer to what is written is `restrict`,
# unless it is the only pointer of its call. In a contract `result` is what a function returns, so no parameter of the source has that
# name: it is `res` there.
source_functions() {
    awk '/^pub extern "C" fn/ { on = 1 } on { printf "%s ", $0 } / -> / { on = 0 }' $exports | sed -E '
        s/pub extern "C" fn (\w+)\(\s*([^)]*)\) -> (\w+) /\3 \1(\2);\n/g
        s/\(\)/(void)/g
        s/\bres: /result: /g
        s/(\w+): &mut \[u8\]/u8 *restrict \1, usize \1_length/g
        s/(\w+): &\[u8\]/const u8 *\1, usize \1_length/g
        s/(\w+): &mut \[(\w+); (\w+)\]/\2 \1[static restrict \3]/g
        s/(\w+): &\[(\w+); (\w+)\]/const \2 \1[static \3]/g
        s/(\w+): &mut (\w+::)*([A-Z]\w*)/@\3 *restrict \1/g
        s/(\w+): &(\w+::)*([A-Z]\w*)/const @\3 *\1/g
        s/(\w+): &mut (\w+)/\2 *restrict \1/g
        s/(\w+): (\w+)/\2 \1/g
        s/,\s*\)/)/g; s/ +/ /g' | sed -E '/[*[].*[*[]/!s/\*restrict /*/' | to_c_types | to_c_structs
}

# C++ has neither `restrict` nor lengths for array parameters; compilers have __restrict__ for pointers.
source_cpp_functions() {
    source_functions | sed -E 's/\[static (restrict )?/[/g; s/\*restrict /*__restrict__ /g'
}

# The pointers that may not be null: all that have no length after them. A function and their places, counted from 1.
source_nonnull() {
    source_functions | awk -F '[(,)] ?' '{
        places = ""
        for (k = 2; k < NF; k++)
            if ($k ~ /[*[]/ && $(k + 1) !~ /_length$/) places = places (places == "" ? "" : ", ") (k - 1)
        sub(/.* /, "", $1)
        if (places != "") print $1, places
    }'
}

# No function's answer may be ignored.
source_use_result() {
    source_functions | sed -E 's/\w+ (\w+)\(.*/\1/'
}

# The structs with the layout of C, each on one line.
source_structs() {
    sed -E 's|//.*||' $exports crates/mpeg1_reader/src/entry.rt | tr -s '[:space:]' ' ' |
        grep -oE '#\[repr\(C\)\] (#\[[^]]*\] )*pub struct \w+ \{[^}]*\}' | sed -E '
        s/.*pub struct (\w+) \{ ?/@\1 { /
        s/pub (\w+): (\w+),? ?/\2 \1; /g' | to_c_types | to_c_structs
}

# The constants of a type in a file: name and number.
constants() {
    sed -nE "s/^ *pub(\(crate\))? const (\w+): $1 = ([0-9]+);/\2 \3/p" "$2"
}

source_version() {
    constants u32 $exports
}

source_answers() {
    constants u32 crates/refusals/src/lib.rt
    sed -nE '/^pub enum Refusal /,/^}/s/^ *(\w+) = ([0-9]+),/REFUSED_\1 \2/p' crates/refusals/src/lib.rt |
        sed -E 's/([a-z])([A-Z])/\1_\2/g; s/^(\w+)/\U\1/'
}

source_limits() {
    constants usize crates/symbols/src/size.rt
    sed -nE 's/^ *([0-9]+) \* macroblocks$/MACROBLOCK_BYTES \1/p' crates/symbols/src/size.rt
    sed -nE 's/^(\w+) = ([0-9]+)$/\1 \2/p' crates/mpeg1_reader/specs/RecordLengths.antt | sed -E 's/^(\w+)/\U\1/'
}

source_coding_types() {
    constants u8 crates/symbols/src/header.rt
}

source_kinds() {
    constants u8 crates/format3_records/src/record.rt | sed -E 's/^(\w+)_KIND /KIND_\1 /'
}

# ---- from the header

# The header as C or C++, without comments, as one line.
preprocess() {
    gcc -x "$1" -E -P "$header" | tr -s '[:space:]' ' ' | sed -E 's/([[(]) /\1/g'
}

# All declarations, without their attributes; format3_answer_text is a definition.
header_functions() {
    grep -oE '\w+ \**format3_\w+\([^()]*\);' "$scratch/preprocessed"
}

header_cpp_functions() {
    preprocess c++ | grep -oE '\w+ \**format3_\w+\([^()]*\);'
}

header_nonnull() {
    grep -oE 'nonnull\([^()]*\)\)\) \w+ format3_\w+' "$scratch/preprocessed" | sed -E 's/nonnull\(([^)]*)\).* (\w+)/\2 \1/'
}

header_use_result() {
    grep -oE 'warn_unused_result\)\) (__attribute__\(\(nonnull\([^()]*\)\)\) )?\w+ format3_\w+' "$scratch/preprocessed" | sed -E 's/.* //'
}

header_structs() {
    grep -oE 'struct format3_\w+ \{[^}]*\}' "$scratch/preprocessed"
}

# The names and numbers of an enumeration.
enumeration() {
    grep -oE "enum $1 \{[^}]*\}" "$scratch/preprocessed" | sed -E 's/.*\{ (.*) \}/\1/; s/, */\n/g' | sed 's/^FORMAT3_//; s/ = / /'
}

header_version() {
    gcc -E -dM "$header" | sed -nE 's/^#define FORMAT3_(API_VERSION [0-9]+)$/\1/p'
}

header_answers() { enumeration format3_answer; }
header_limits() { enumeration format3_limit; }
header_coding_types() { enumeration format3_coding_type; }
header_kinds() { enumeration format3_kind; }

# ---- comparing

# The source and the header must have the same items under a name, in any order, and at least one. Prints how many.
require_same() {
    "source_$1" | sort > "$scratch/source" || wrong "$1 (none in the source)"
    "header_$1" | sort > "$scratch/header" || wrong "$1 (none in the header)"
    [[ -s $scratch/source ]] || wrong "$1 (none in the source)"
    diff "$scratch/source" "$scratch/header" >&2 || wrong "$1"
    echo "format3.h: $(wc -l < "$scratch/source") $1"
}

# The names that nm lists for a library, with these options, must be those of the header's functions.
require_exports() {
    header_functions | sed -E 's/.*\b(format3_\w+)\(.*/\1/' | sort > "$scratch/declared"
    nm --defined-only "$1" "$2" | awk 'NF > 2 { print $NF }' | sort > "$scratch/exported"
    diff "$scratch/declared" "$scratch/exported" >&2 || wrong "exports of ${2##*/}"
}

# Compiles the header, included twice, without a warning: COMPILER SUFFIX STANDARD..
require_compiled() {
    local standard
    if ! command -v "$1" > /dev/null; then
        echo "!!! format3.h is NOT COMPILED with $1: it is not here (Debian: apt-get install clang)"
        return
    fi
    for standard in "${@:3}"; do
        "$1" -std="$standard" -Wall -Wextra -Wpedantic -Wconversion -Wsign-conversion -Wshadow -Wundef -Werror -fsyntax-only \
            -I "$folder/include" "$scratch/include.$2" >&2 || wrong "$standard ($1)"
    done
}

# A C++ program with the address of each of the header's functions must link with libformat3.a.
require_linked() {
    if ! command -v g++ > /dev/null; then
        echo "!!! format3.h is NOT LINKED in C++: g++ is not here (Debian: apt-get install g++)"
        return
    fi
    {
        echo '#include "format3.h"'
        echo 'void (*const volatile functions[])() = {'
        header_functions | sed -E 's/.*\b(format3_\w+)\(.*/    reinterpret_cast<void (*)()>(\1),/'
        echo '};'
        echo 'int main() { return functions[0] == nullptr; }'
    } > "$scratch/linked.cpp"
    g++ -std=c++11 -Wall -Wextra -Werror -I "$folder/include" "$scratch/linked.cpp" "$folder/lib/libformat3.a" \
        -o "$scratch/linked" >&2 || wrong 'C++ linkage'
}

printf '#include "format3.h"\n#include "format3.h"\n' | tee "$scratch/include.c" > "$scratch/include.cpp"
require_compiled gcc c c99
require_compiled g++ cpp c++11
preprocess c > "$scratch/preprocessed"
for check in version functions cpp_functions nonnull use_result structs answers limits coding_types kinds; do
    require_same $check
done
shared=libformat3.so.$(header_version | cut -d ' ' -f 2)
require_exports --extern-only "$folder/lib/libformat3.a"
require_exports --dynamic "$folder/lib/$shared"
require_linked
[[ $(objdump -p "$folder/lib/$shared" | awk '$1 == "SONAME" { print $2 }') == "$shared" ]] || wrong soname
[[ $folder/lib/libformat3.so -ef $folder/lib/$shared ]] || wrong "link libformat3.so"
require_compiled gcc c c11
require_compiled g++ cpp c++17
require_compiled clang c c99 c11
require_compiled clang++ cpp c++11 c++17

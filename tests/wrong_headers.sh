#!/usr/bin/env bash
# tests/wrong_headers.sh FOLDER: tests that header.sh refuses wrong headers and wrong libraries, each for the right reason. A
# wrong header is made by one edit of the header in FOLDER, a wrong library by linking FOLDER's in another way.
set -euo pipefail
folder=$(realpath "$1")
cd "$(dirname "$0")"
wrong=$(mktemp -d)
trap 'rm -rf "$wrong"' EXIT
mkdir "$wrong/include"

# header.sh must refuse what is in $wrong, by the CHECK. WHAT says what is wrong with it.
require_refused() {
    local printed
    if printed=$(./header.sh "$wrong" 2>&1); then
        echo "wrong_headers: $2 was not refused" >&2
        exit 1
    fi
    if [[ ${printed##*$'\n'} != "format3.h: wrong $1"* ]]; then
        echo "wrong_headers: $2 was refused, but not by its $1: ${printed##*$'\n'}" >&2
        exit 1
    fi
}

# header.sh must refuse the header changed by this edit, by the CHECK.
require_edit_refused() {
    sed -E "$2" "$folder/include/format3.h" > "$wrong/include/format3.h"
    if cmp -s "$folder/include/format3.h" "$wrong/include/format3.h"; then
        echo "wrong_headers: $2 changes nothing" >&2
        exit 1
    fi
    require_refused "$1" "$2"
}

# header.sh must refuse the library after this command in a copy of its folder lib, by the CHECK.
require_library_refused() {
    rm -rf "$wrong/lib"
    cp -a "$folder/lib" "$wrong/lib"
    (cd "$wrong/lib" && eval "$2")
    require_refused "$1" "$2"
}

# A check, and an edit that it must refuse.
edits=(
    'c99' 's/^    FORMAT3_KIND_MATRIX = 2,$/    FORMAT3_KIND_MATRIX = 2/'
    'c99' 's/^#ifndef FORMAT3_H$/#ifndef OTHER_H/'
    'c++11' 's/^extern "C" \{$/extern "C" { int x[] = {1.5};/'
    'version' 's/(define FORMAT3_API_VERSION) [0-9]+/\1 99/'
    'version' 's/define FORMAT3_API_VERSION/define FORMAT3_VERSION/'
    'functions' 's/struct format3_picture_result \*/struct format3_record */'
    'functions' 's/const struct format3_picture_parameters \*/struct format3_picture_parameters */'
    'functions' 's/(intra_coefficient.*)int32_t scale, int32_t weight/\1int32_t weight, int32_t scale/'
    'functions' 's/\*forward, size_t forward_length/*backward, size_t backward_length/; t; s/\*backward, size_t backward_length/*forward, size_t forward_length/'
    'functions' 's/const uint8_t \*forward/uint8_t *forward/'
    'functions' 's/const uint8_t \*slice/uint8_t *slice/'
    'functions' 's/^uint32_t format3_reconstruct_small/uint32_t format3_reconstruct_less/'
    'functions' '/^uint32_t format3_reconstruct_small/,/;/s/size_t output_length/uint32_t output_length/'
    'functions' 's/size_t offset, /uint32_t offset, /'
    'functions' 's/AT_LEAST 64\]/AT_LEAST 63]/'
    'functions' 's/uint32_t residual/int32_t residual/'
    'functions' 's/size_t (\*FORMAT3_RESTRICT rows)/uint32_t \1/'
    'functions' 's/^uint32_t format3_vector/int32_t format3_vector/'
    'functions' 's/^(uint32_t format3_vector.*)$/\1\n\1/'
    'functions' '/NULL\(5\)/d; /^uint32_t format3_vector/d'
    'functions' 's/^(uint32_t format3_vector.*)$/\1\nvoid format3_more(void);/'
    'functions' 's/^uint32_t format3_encode_vector/uint32_t format3_write_vector/'
    'functions' 's/int32_t past, int32_t wanted/int32_t wanted, int32_t past/'
    'functions' 's/uint32_t \*FORMAT3_RESTRICT residual/int32_t *FORMAT3_RESTRICT residual/'
    'functions' 's/int32_t \*FORMAT3_RESTRICT code/int32_t *code/'
    'functions' 's/format3_api_version\(void\)/format3_api_version(int x)/'
    'nonnull' 's/NOT_NULL\(9\)/NOT_NULL(7)/'
    'nonnull' '0,/NOT_NULL\(9\)/!s/NOT_NULL\(9\)/NOT_NULL(7)/'
    'nonnull' 's/NOT_NULL\(3, 6\)/NOT_NULL(3)/'
    'nonnull' 's/NOT_NULL\(3, 6\)/NOT_NULL(1, 3, 6)/'
    'nonnull' 's/NOT_NULL\(1, 2, 3\)/NOT_NULL(1, 2)/'
    'nonnull' 's/FORMAT3_NOT_NULL\(5\)//'
    'nonnull' 's/NOT_NULL\(4, 5\)/NOT_NULL(5)/'
    'functions' 's/\*FORMAT3_RESTRICT output/*output/'
    'functions' 's/(struct format3_picture_result \*)FORMAT3_RESTRICT /\1/'
    'functions' 's/const uint8_t \*forward/const uint8_t *FORMAT3_RESTRICT forward/'
    'functions' 's/define FORMAT3_RESTRICT restrict/define FORMAT3_RESTRICT/'
    'functions' 's/(int16_t \*)(coefficient\))/\1FORMAT3_RESTRICT \2/'
    'functions' 's/\*FORMAT3_RESTRICT rows/*rows/'
    'functions' 's/FORMAT3_ARRAY_RESTRICT 64/64/'
    'functions' 's/coefficients\[FORMAT3_AT_LEAST 64/coefficients[64/'
    'functions' 's/residues\[FORMAT3_AT_LEAST /residues[/'
    'cpp_functions' 's/define FORMAT3_RESTRICT __restrict__/define FORMAT3_RESTRICT/'
    'use_result' 's/FORMAT3_USE_RESULT FORMAT3_NOT_NULL\(5\)/FORMAT3_NOT_NULL(5)/'
    'use_result' 's/^FORMAT3_USE_RESULT$//'
    'use_result' 's/(define FORMAT3_USE_RESULT) __attribute__.*/\1/'
    'structs' 's/size_t place;/uint32_t place;/'
    'structs' '/^    size_t rows;$/d'
    'structs' '/^    size_t made;$/d; s/^    size_t rows;$/&\n    size_t made;/'
    'structs' '/^    size_t start;$/d; s/^    size_t length;$/&\n    size_t start;/'
    'structs' 's/uint8_t kind;/uint32_t kind;/'
    'structs' 's/^    uint32_t coding_type;$/&\n    uint32_t full_pel;/'
    'structs' 's/uint32_t forward_f_code;/uint32_t backward;/; s/uint32_t backward_f_code;/uint32_t forward_f_code;/; s/uint32_t backward;/uint32_t backward_f_code;/'
    'structs' '/^    size_t bit;$/d'
    'structs' 's/^struct format3_header \{/struct format3_other { int x; };\n&/'
    'answers' 's/REFUSED_PATTERN = 15/REFUSED_PATTERN = 99/'
    'answers' 's/(FORWARD_VECTOR_OUTSIDE =) 18/\1 23/; s/(BACKWARD_VECTOR_OUTSIDE =) 23/\1 18/'
    'answers' 's/FORMAT3_ACCEPTED = 0/FORMAT3_ACCEPTED = 98/'
    'answers' 's/REFUSED_SLICE_CODE = 24/REFUSED_SLICE_CODE = 97/'
    'answers' 's/REFUSED_RECORDS_LENGTH = 26/REFUSED_RECORDS_LENGTH = 96/'
    'answers' 's/REFUSED_MACROBLOCK_LIMIT = 27/REFUSED_MACROBLOCK_LIMIT = 95/'
    'answers' 's/REFUSED_VECTOR_UNREACHABLE = 33/REFUSED_VECTOR_UNREACHABLE = 28/'
    'answers' 's/REFUSED_OUT_OF_TURN/REFUSED_TURN/'
    'limits' 's/MAX_WIDTH = 48/MAX_WIDTH = 49/'
    'limits' 's/MAX_MACROBLOCKS = 396/MAX_MACROBLOCKS = 99/'
    'limits' 's/MAX_MACROBLOCKS_SMALL = 99/MAX_MACROBLOCKS_SMALL = 100/'
    'limits' '/MAX_MACROBLOCKS_SMALL = 99/d'
    'limits' 's/MACROBLOCK_BYTES = 384/MACROBLOCK_BYTES = 385/'
    'limits' 's/SLICE_RECORD_BYTES = 6/SLICE_RECORD_BYTES = 5/'
    'limits' 's/MAX_MACROBLOCK_RECORD_BYTES = 1174/MAX_MACROBLOCK_RECORD_BYTES = 1173/'
    'limits' 's/^enum format3_limit/enum limit/'
    'coding_types' 's/FORMAT3_P_PICTURE = 2/FORMAT3_P_PICTURE = 4/'
    'coding_types' '/FORMAT3_B_PICTURE = 3/d'
    'kinds' 's/KIND_SLICE = 3/KIND_SLICE = 2/'
    'C++ linkage' 's/^extern "C" \{$/extern "C++" {/'
)

# A check, and a command that makes a library that it must refuse.
shared=$(cd "$folder/lib" && echo libformat3.so.*)
link="gcc -shared -o $shared -Wl,--whole-archive libformat3.a -Wl,--no-whole-archive -Wl,-soname"
more='echo "int format3_more;" | gcc -fPIC -x c - -c -o more.o'
libraries=(
    'exports of libformat3.a' "$more && ar r libformat3.a more.o"
    'exports of libformat3.a' "echo | gcc -x c - -c -o none.o && ar rcs other.a none.o && mv other.a libformat3.a"
    "exports of $shared" "$more && $link,$shared more.o"
    "exports of $shared" "echo | gcc -shared -x c - -o $shared"
    'soname' "$link,libformat3.so"
    'link' "rm libformat3.so && cp $shared libformat3.so"
)

ln -s "$folder/lib" "$wrong/lib"
for ((k = 0; k < ${#edits[@]}; k += 2)); do
    require_edit_refused "${edits[k]}" "${edits[k + 1]}"
done
echo "format3.h: $((k / 2)) wrong headers refused"
cp "$folder/include/format3.h" "$wrong/include/"
for ((k = 0; k < ${#libraries[@]}; k += 2)); do
    require_library_refused "${libraries[k]}" "${libraries[k + 1]}"
done
echo "format3.h: $((k / 2)) wrong libraries refused"

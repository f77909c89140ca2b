#!/usr/bin/env bash
# shellcheck disable=SC2016
# tests/entries.sh: the public entries are the functions of crates/entries, and these alone.
# - Each function there is `pub`, has an `ensures` and no `requires`. Those of other crates are not re-exported there.
# - crates/format3_c calls functions of `entries` alone; so do the programs, crates/panel and crates/vectors, except to read input and write output.
#   None calls a method of another crate of the project.
# Then it shows that it can fail: it refuses copies of these crates, each with one change.
set -euo pipefail
cd "$(dirname "$0")/.."
folder=$(mktemp -d)
trap 'rm -rf "$folder"' EXIT
right=$folder/right wrong=$folder/wrong

# The source of a crate, one file after the other, without comments.
source_of() { # CRATES CRATE
    find "$1/$2/src" -name '*.rt' | sort | xargs sed -E 's|//.*||'
}

# What is wrong with the functions of the entries, one line each; then their count.
look_at_entries() { # CRATES
    source_of "$1" entries | awk '
        function wrong(what) { print "entries: " name " " what; failed = 1 }
        function ended() { if (inside && !ensured) wrong("has no ensures"); inside = 0 }
        /(^|[^A-Za-z0-9_])fn [a-z0-9_]+/ {
            ended()
            name = $0; sub(/^.*fn /, "", name); sub(/[<(].*/, "", name)
            if ($0 !~ /^pub (extern "C" )?fn /) wrong("is not public")
            inside = 1; ensured = 0; count++
        }
        /(^|[^A-Za-z0-9_])requires([^A-Za-z0-9_]|$)/ { wrong("has a requires") }
        /^ *ensures / { ensured = 1 }
        # The body starts: a clause is shut on its own line.
        /\{$/ { ended() }
        # What is re-exported: types and constants, which have a capital letter, and no function or module.
        /^ *pub use / { used = "" }
        { used = used " " $0 }
        used ~ /^ *pub use .*;/ {
            sub(/^ *pub use /, "", used)
            sub(/;.*/, "", used)
            parts = split(used, part, /[{},]/)
            for (k = 1; k <= parts; k++) {
                name = part[k]; sub(/ as .*/, "", name); gsub(/ /, "", name)
                if (name == "" || name ~ /::$/) continue
                sub(/.*::/, "", name)
                if (name !~ /^[A-Z]/) wrong("is re-exported")
            }
        }
        END {
            ended()
            if (!count) { print "entries: no function"; failed = 1 }
            if (!failed) print count
            exit failed
        }'
}

# The public methods of the project, `Type::name` each, but for those of the entries.
methods_of_the_project() {
    find crates/*/src -name '*.rt' ! -path 'crates/entries/*' | sort | xargs sed -E 's|//.*||' | awk '
        /^impl/ { type = $0; sub(/^impl(<[^>]*>)? +(.* for +)?/, "", type); sub(/[^A-Za-z0-9_].*/, "", type) }
        /^}/ { type = "" }
        type != "" && match($0, /^ +pub (const )?fn [a-z0-9_]+/) {
            name = substr($0, RSTART, RLENGTH); sub(/.* /, "", name)
            printf "%s::%s ", type, name
        }'
}

# The crates and modules that a crate names in its paths, other than those allowed, and the methods of the project that it names, one line each.
# A type, with a capital letter, is passed over: the path that imports it starts with its crate.
look_at_calls() { # CRATES CRATE ALLOWED..
    source_of "$1" "$2" | awk -v crate="$2" -v allowed=" ${*:3} " -v methods="$methods" '
        BEGIN {
            count = split(methods, listed, " ")
            for (k = 1; k <= count; k++) { qualified[listed[k]]; name = listed[k]; sub(/.*::/, "", name); method[name] }
        }
        {
            for (line = $0; match(line, /(^|[^.])\.[a-z_][A-Za-z0-9_]* *(::<[^(]*>)?\(/); line = substr(line, RSTART + RLENGTH)) {
                name = substr(line, RSTART, RLENGTH); sub(/^[^.]*\./, "", name); sub(/[^A-Za-z0-9_].*/, "", name)
                if (name in method) { print "entries: " crate " calls the method " name; failed = 1 }
            }
            for (line = $0; match(line, /[A-Z][A-Za-z0-9_]*::[a-z][A-Za-z0-9_]*/); line = substr(line, RSTART + RLENGTH)) {
                name = substr(line, RSTART, RLENGTH)
                if (name in qualified) { print "entries: " crate " names the method " name; failed = 1 }
            }
            for (line = $0; match(line, /(^|[^A-Za-z0-9_:])[A-Za-z_][A-Za-z0-9_]*::/); line = substr(line, RSTART + RLENGTH)) {
                name = substr(line, RSTART, RLENGTH - 2)
                sub(/^[^A-Za-z_]/, "", name)
                if (name == "entries") found = 1
                if (name !~ /^[A-Z]/ && !index(allowed, " " name " ")) { print "entries: " crate " names " name; failed = 1 }
            }
        }
        END {
            if (!found) { print "entries: " crate " calls no entry"; failed = 1 }
            exit failed
        }'
}

methods=$(methods_of_the_project)

look_at() { # CRATES
    local failed=0
    look_at_entries "$1" || failed=1
    look_at_calls "$1" format3_c entries || failed=1
    look_at_calls "$1" panel entries reel_input std io || failed=1
    look_at_calls "$1" vectors entries std io || failed=1
    return $failed
}

if ! count=$(look_at crates); then
    echo "$count"
    exit 1
fi

mkdir "$right"
cp -R crates/entries crates/format3_c crates/panel crates/vectors "$right"

# A file, changed by an edit of sed, in a copy of the crates.
change() { # FILE EDIT
    rm -rf "$wrong"
    cp -R "$right" "$wrong"
    sed -Ei "$2" "$wrong/$1"
    if cmp -s "$right/$1" "$wrong/$1"; then
        echo "entries: $2 changes nothing of $1" >&2
        exit 1
    fi
}

changes=0
require_refused() { # FILE EDIT WORDS
    change "$1" "$2"
    if look_at "$wrong" >"$folder/out" || ! grep -qxF "entries: $3" "$folder/out"; then
        echo "entries: $1 with $2 was not refused by: $3" >&2
        cat "$folder/out" >&2
        exit 1
    fi
    changes=$((changes + 1))
}

require_passed() { # FILE EDIT
    change "$1" "$2"
    if ! look_at "$wrong" >"$folder/out"; then
        echo "entries: $1 with $2 was refused:" >&2
        cat "$folder/out" >&2
        exit 1
    fi
}

entries=entries/src/lib.rt exports=format3_c/src/lib.rt panel=panel/src/main.rt vectors=vectors/src/main.rt
require_refused $entries '/^pub fn vector\(/a\    requires { code ≡ past }' 'vector has a requires'
require_refused $entries 's/^pub fn read_slice.*/&\n    requires small { parameters.width ≡ 1 }/' 'read_slice has a requires'
require_refused $entries '/^pub fn transform\(/,/^\{/{/ensures/d}' 'transform has no ensures'
require_refused $entries '/^pub fn read_slice\(/,/^\{/{/ensures/d}' 'read_slice has no ensures'
require_refused $entries '$a pub fn twice(a: u8) -> u8 {\n    a\n}' 'twice has no ensures'
require_refused $entries 's/^pub fn report/fn report/' 'report is not public'
require_refused $entries 's/^pub fn report/pub(crate) fn report/' 'report is not public'
require_refused $entries '/fn /d' 'no function'
require_refused $entries 's/^pub use refusals::ACCEPTED;/pub use refusals::{ACCEPTED, number};/' 'number is re-exported'
require_refused $entries '$a pub use format3_records::{\n    record::record_at as RecordAt,\n    record::Record,\n};' 'record_at is re-exported'
require_refused $entries '$a pub use decode_idct::*;' '* is re-exported'
require_refused $entries 's/^use mpeg1_reader::entry;/pub &/' 'entry is re-exported'
require_refused $exports 's/entries::transform\(/decode_idct::transform(/' 'format3_c names decode_idct'
require_refused $exports 's/Err\(refused\.refusal\), /Ok(refused.refusal.number() as usize), /' 'format3_c calls the method number'
require_refused $exports 's/found\.size\.width as u32/found.size\n    .macroblocks() as u32/' 'format3_c calls the method macroblocks'
require_refused $exports 's/entries::number\(&intra\)/intra.map_or(0, Refusal::number)/' 'format3_c names the method Refusal::number'
require_refused $exports '1i use format3_picture::reader;' 'format3_c names format3_picture'
require_refused $exports '$a use reel_input::read_all;' 'format3_c names reel_input'
require_refused $exports '1i use std::io;' 'format3_c names std'
require_refused $exports '1i use decode_idct::TransformAnswer;' 'format3_c names decode_idct'
require_refused $panel 's/entries::report\(/reel_report::report(/' 'panel names reel_report'
require_refused $panel 's/entries::MAX_REEL_BYTES/reel_parts::part::MAX_REEL_BYTES/' 'panel names reel_parts'
require_refused $panel 's/&reel\[\.\.length\]/reel.bytes(..length)/' 'panel calls the method bytes'
require_refused $panel '/entries::/d' 'panel calls no entry'
require_refused $vectors 's/entries::list_vectors\(/vector_list::list_vectors(/' 'vectors names vector_list'
require_refused $vectors 's/&text\[\.\.printed\]/text.row(printed)/' 'vectors calls the method row'
require_refused $vectors '/entries::/d' 'vectors calls no entry'
require_refused $vectors '1i use reel_input::read_all;' 'vectors names reel_input'
require_passed $entries '1i // An entry never requires anything. fn'
require_passed $entries 's/^use refusals::Refusal;/pub &/'
require_passed $exports '1i // decode_idct::transform is called by the entry.'

echo "entries: $count entries, each with an ensures and no requires; $changes wrong copies refused"

#!/usr/bin/env bash
# tests/wrong_programs.sh [CRATES LOGS]: checks the wrong programs under CRATES/*/must-fail (default: crates) mistake by mistake, from the logs
# that tests/wrong_logs.sh leaves under LOGS (default: target/must-fail).
#
# An edit has one or more mistakes, each a line `# NAME, refused at PATH` with its replacements below. PATH is the folder under proofs/ of
# the function that is wrong (whether it has files there or not) or, if a law refutes the mistake, the law's file under proofs/, with its ending.
# `rt` only says that the edit as a whole is refused. This script checks that each mistake is refused at its path, because a fact fails:
# - There is an error at that path, other than that something it uses was not admitted; or, if the checker looks for the function's proof
#   itself, it found none for one of its goals.
# - No error there says that the proof's text doesn't fit the code: that a goal, a loop or a fact that it names is not there, or, in
#   Invariants.antt, that a loop has other locals. Such an edit shows nothing.
# - Wrong code (an edit of src/) has no error at any other path. So several mistakes may share an edit, each in its own function.
# - Other proofs are checked against a definition (specs/) or a clause of a contract too. If a wrong one is alone in its edit, other paths
#   may have errors, but the first error is at the path it names: of the errors in files, or of the functions whose proof was not found,
#   whichever that path has. If it shares an edit, the rule for wrong code applies, and the functions and proofs of the other mistakes must
#   not name it.
set -euo pipefail
cd "$(dirname "$0")/.."
crates=${1:-crates}
logs=${2:-target/must-fail}

# The mistakes of an edit, one per line: `code`, `clause` or `definition`, NAME, PATH. Fails if a replacement has no name, if two mistakes
# have the same path, if the replacements of one mistake are not in one paragraph of one file, or if a mistake is beside a wrong definition
# or clause that its function or proof names.
mistakes_of() { # EDIT
    awk -v crate="${1%/must-fail/*}" '
        function wrong(what) { print FILENAME ":" FNR ": " what > "/dev/stderr"; failed = 1 }
        # The name of the function or definition that a line declares.
        function declared(line) {
            if (sub(/^ *(pub(\([a-z]+\))? )?(extern "C" )?fn /, "", line)) sub(/[<(].*/, "", line)
            else if (line ~ /^ *((abbrev|unfoldable|pub) )*((record|data) [^ ]+|[^ ]+ :) /) {
                gsub(/^ *|(abbrev|unfoldable|pub|record|data) /, "", line)
                sub(/ .*/, "", line)
            } else line = ""
            return line
        }
        # The file and paragraph that a text is in. It sets the paragraph (`around`), the name that it declares (`given`), and whether the text
        # is in a clause of a contract.
        function place_of(old,    line, parts, lines, n, k, i, count, found) {
            around = given = ""
            n = 1
            while ((getline line < file) > 0) if (line == "") n++; else parts[n] = parts[n] line "\n"
            close(file)
            for (k = 1; k <= n; k++) {
                if (!index(parts[k], old)) continue
                found = found " " k
                around = parts[k]
                given = ""
                count = split(around, lines, "\n")
                for (i = 1; i <= count; i++) {
                    if (given == "") given = declared(lines[i])
                    if (index(lines[i], old)) clause = lines[i] ~ /^ *(requires|ensures) /
                }
            }
            return file found
        }
        # Whether a name occurs in a text.
        function has(text, name) { return name != "" && text ~ ("(^|[^A-Za-z0-9_-])" name "([^A-Za-z0-9_-]|$)") }
        # What the files of the proof of a function say.
        function proof_of(path,    names, count, k, file, line, text) {
            count = split("Answers Invariants Proof", names, " ")
            for (k = 1; k <= count; k++) {
                file = crate "/proofs/" path "/" names[k] ".antt"
                while ((getline line < file) > 0) text = text line "\n"
                close(file)
            }
            return text
        }
        /^# [a-z0-9_]+, refused at [A-Za-z0-9_\/]+(\.antt)?$/ {
            if (mistakes && places[mistakes] == "") wrong("a mistake has no replacement")
            names[++mistakes] = substr($2, 1, length($2) - 1); paths[mistakes] = $5; kinds[mistakes] = "code"
            if (seen[names[mistakes]]++) wrong("a second mistake " names[mistakes])
            if (seen["at " $5]++) wrong("a second mistake at " $5)
            next
        }
        !mistakes { wrong("a line under no name"); exit }
        /^file: / { file = crate "/" substr($0, 7); next }
        /^old: / {
            here = place_of(substr($0, 6))
            if (here == file) wrong("the old text is not in its file")
            if (places[mistakes] != "" && here != places[mistakes]) wrong("a mistake in two places: each has a name of its own")
            places[mistakes] = here
            texts[mistakes] = around
            if (file ~ /\/specs\//) kinds[mistakes] = "definition"
            else if (clause) kinds[mistakes] = "clause"
            if (kinds[mistakes] != "code") givens[mistakes] = given
            next
        }
        /^new:/ { next }
        { wrong("not a line of an edit") }
        END {
            if (!mistakes && !failed) wrong("an edit without a mistake")
            if (mistakes && places[mistakes] == "") wrong("a mistake has no replacement")
            for (i = 1; i <= mistakes; i++) {
                print kinds[i], names[i], paths[i]
                for (j = 1; j <= mistakes; j++)
                    if (j != i && has(texts[j] proof_of(paths[j]), givens[i])) wrong(names[j] " is checked against " givens[i] ", which " names[i] " changes")
            }
            exit failed
        }' "$1"
}

# The errors of a log in order, one per line: `fact`, or `text` if the proof does not fit the code; the path; and `file` if the error is one of
# a file, or `none` if no proof was found.
errors_of() { # LOG
    awk '
        function told() {
            if (place != "") print kind, place, how
            place = ""
        }
        function at(path) {
            sub(/^\.\//, "", path)
            if (!sub(/^proofs\//, "", path)) return path
            sub(/\/(Answers|Invariants|Proof)\.antt.*$/, "", path)
            return path
        }
        # What is said of the text of a proof: a name that is not there, or an invariant that fits no loop of the code.
        function look(line) {
            if (line ~ /has no `[^`]*` that can be named from here|has no field `|is not in scope/) kind = "text"
        }
        /^  / { look($0); next }
        { told() }
        # What stands under a goal that the code does not have.
        /^note: [^ ]+\.antt: `[^`]*` is no name that rattle asks for / {
            place = at(substr($2, 1, length($2) - 1))
            kind = "text"; how = "file"
            next
        }
        /: error: [0-9]+ declarations? that depends? on .* not checked/ || / was not admitted / { next }
        match($0, /^[^ ]+:[0-9]+:[0-9]+: error(\[[^]]*\])?: /) {
            place = $0; sub(/:[0-9]+:[0-9]+: error.*/, "", place)
            kind = place ~ /\/Invariants\.antt$/ ? "text" : "fact"; how = "file"
            place = at(place)
            look($0)
            next
        }
        /^fn [^ ]+: no proof: expected [^ ]+ in [^ ]+; `search` did not prove `/ {
            place = $0; sub(/^[^;]* in /, "", place); sub(/;.*/, "", place); place = at(place)
            kind = "fact"; how = "none"
        }
        END { told() }' "$1"
}

failed=0 mistakes=0 edits=0
complain() {
    echo "wrong programs: $*"
    failed=1
}

# Checks the mistakes of an edit, as `mistakes_of` prints them, against the errors of its log.
look_at() { # EDIT MISTAKES ERRORS
    local edit=$1 named=$2 errors=$3 name path how
    while read -r _ name path; do
        mistakes=$((mistakes + 1))
        if grep -qF "text $path " <<<"$errors"; then
            complain "$edit: $name shows nothing: the proof at $path doesn't fit its code"
        elif ! grep -qF "fact $path " <<<"$errors"; then
            complain "$edit: $name was not refused at $path"
        fi
    done <<<"$named"
    if [[ $named != *$'\n'* && $named != code* ]]; then
        path=${named##* }
        how=$(awk -v path="$path" '$2 == path { print $3; exit }' <<<"$errors")
        path=$(awk -v how="$how" '$3 == how { print $2; exit }' <<<"$errors")
        [[ $path == "${named##* }" || -z $path ]] || complain "$edit: its first error is at $path"
        return
    fi
    [[ $errors ]] || return 0
    while read -r _ path _; do
        grep -q " $path\$" <<<"$named" || complain "$edit: an error at $path, where it has no mistake"
    done < <(sort -u -k 2,2 <<<"$errors")
}

for edit in "$crates"/*/must-fail/*.edit; do
    edits=$((edits + 1))
    if ! named=$(mistakes_of "$edit"); then
        failed=1
        continue
    fi
    crate=${edit#"$crates"/}
    log=$logs/${crate%%/*}/$(basename "$edit" .edit).log
    if [[ ! -f $log || $edit -nt $log ]]; then
        complain "$edit has no log, or an old one: run tests/wrong_logs.sh"
    elif ! grep -qE '^logic=(not-)?proved' "$log"; then
        complain "$edit: its check came to no verdict"
    else
        look_at "$edit" "$named" "$(errors_of "$log")"
    fi
done
[[ $mistakes -gt 0 ]] || complain "no edit has a mistake"
[[ $failed == 0 ]] || exit 1
echo "wrong programs: $mistakes mistakes in $edits edits, each refused where it says"

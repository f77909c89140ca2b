#!/usr/bin/env bash
# tests/wrong_logs.sh [CRATE..]: tries the edits crates/CRATE/must-fail/EDIT.edit, of all crates or of these, and leaves what `rt check` says of
# each edited copy of the crate in target/must-fail/CRATE/EDIT.log, for tests/wrong_programs.sh. (`rt ci` and `rt must-fail` try them too, but
# show only the first error of each.)
#
# The crate itself must be proved: its copies are checked over what that check keeps. They lie outside the checkout, where no .rt or .antt file
# may stand but in a crate. As many are checked at once as there are processors, or JOBS; each takes up to 2 GB.
#
# A log is also kept in $XDG_CACHE_HOME/format3/must-fail (by default below ~/.cache), under a sum of all that its check read: the kit, the
# crate, the crates below it and the edit. Where that sum is the same again, also in another checkout, the log is taken from there.
set -euo pipefail
cd "$(dirname "$0")/.."
logs=$PWD/target/must-fail
kept=${XDG_CACHE_HOME:-${HOME:-/nonexistent}/.cache}/format3/must-fail
copies=${TMPDIR:-/tmp}/format3-must-fail-$(id -u)-$(sha256sum <<<"$PWD" | cut -c 1-12)
mkdir -p "$logs"
if ! { mkdir -p "$kept" && [[ -w $kept ]]; } 2>/dev/null; then
    kept=$logs/kept
    mkdir -p "$kept"
fi
exec 9>"$logs/lock"
flock 9
trap 'rm -rf "$copies"' EXIT
mkdir -p "$copies/files"

# The sum of a crate's files, in the checkout or in a copy.
sum_of_files() { # FOLDER CRATE
    (
        cd "$1/crates/$2"
        find src specs proofs -type f -print0 2>/dev/null | LC_ALL=C sort -z | xargs -0 sha256sum | sha256sum
    )
}

# Each crate with all crates below it, and the sum of what its check reads. A line of crates.txt is 'NAME: DEP ..', with words after NAME for
# what is no plain library.
crates=()
declare -A below sums
toolchain=$(rt version; sha256sum <"$0")
while read -r line; do
    crate=${line%%[: ]*}
    crates+=("$crate")
    below[$crate]=
    for dep in ${line#*:}; do
        [[ -v below[$dep] ]] || continue # of the kit
        for name in ${below[$dep]} "$dep"; do
            [[ " ${below[$crate]} " == *" $name "* ]] || below[$crate]+=" $name"
        done
    done
    sum_of_files . "$crate" >"$copies/files/$crate" || true
    sums[$crate]=$({
        echo "$toolchain $line"
        for name in ${below[$crate]}; do echo "${sums[$name]}"; done
        cat "$copies/files/$crate"
    } | sha256sum | cut -c 1-64)
done < <(sed 's/#.*//; /^ *$/d' crates.txt)

# Applies an edit to a copy of its crate. As `rt` does, it takes each old text to stand exactly once in its file, as earlier pairs left it.
apply() { # EDIT FOLDER
    LC_ALL=C awk -v folder="$2" '
        function whole(path,    line, text) {
            while ((getline line < path) > 0) text = text line "\n"
            close(path)
            return text
        }
        function wrong(what) { print FILENAME ":" FNR ": " what; failed = 1; exit }
        /^file: / { path = folder "/" substr($0, 7); if (!(path in texts)) texts[path] = whole(path); next }
        /^old: / { old = substr($0, 6); next }
        /^new:/ {
            new = substr($0, 5); sub(/^ /, "", new)
            at = index(texts[path], old)
            rest = substr(texts[path], at + 1)
            if (!at) wrong("the old text is not in the file")
            if (index(rest, old)) wrong("the old text is in the file more than once")
            texts[path] = substr(texts[path], 1, at - 1) new substr(texts[path], at + length(old))
        }
        END {
            if (failed) exit 1
            for (path in texts) printf "%s", texts[path] > path
        }' "$1"
}

# Checks a crate with an edit and writes the log, in the SLOT that xargs gives: the folder of one of the processes at a time.
check_edit() { # KEPT-LOG EDIT CRATE BELOW..
    local log=$1 edit=$2 crate=$3 folder=$copies/$SLOT name status=0
    rm -rf "$folder"
    mkdir -p "$folder/.git" "$folder/crates"
    grep -E "^($(tr ' ' '|' <<<"${*:3}"))\b.*:" crates.txt >"$folder/crates.txt"
    for name in "${@:3}"; do
        mkdir -p "$folder/crates/$name/out"
        for part in src specs proofs; do
            [[ ! -d crates/$name/$part ]] || cp -R "crates/$name/$part" "$folder/crates/$name/"
        done
        if [[ $(sum_of_files "$folder" "$name" || true) != "$(<"$copies/files/$name")" ]]; then
            echo "wrong logs: crates/$name changed meanwhile"
            return 1
        fi
        # A library that is built is replaced as a whole, and never written into.
        [[ $name == "$crate" ]] || cp -al "crates/$name/out/rlib" "$folder/crates/$name/out/"
    done
    # Of what a check keeps, it replaces the .oantt files, and may write into others.
    cp -al "crates/$crate/out/incremental" "$folder/crates/$crate/out/"
    find "$folder/crates/$crate/out" -type f ! -name '*.oantt' -exec sh -c 'for it; do cp -p "$it" "$it.own" && mv "$it.own" "$it"; done' _ {} +
    if ! apply "$edit" "$folder/crates/$crate" >"$folder/log"; then
        echo "wrong logs: $(<"$folder/log")"
        return 1
    fi
    (cd "$folder/crates/$crate" && rt check --jobs 1) >"$folder/log" 2>&1 || status=$?
    if [[ $status != [013] ]]; then
        echo "wrong logs: the check of $edit ended with status $status:"
        tail -n 5 "$folder/log"
        return 1
    fi
    cp "$folder/log" "$log.$BASHPID"
    mv "$log.$BASHPID" "$log"
    rm -rf "$folder"
}

# What is not kept: a line for each edit, the crates in the order of crates.txt.
failed=0
todo=()
for crate in "${crates[@]}"; do
    [[ $# == 0 || " $* " == *" $crate "* ]] || continue
    new=0
    for edit in "crates/$crate"/must-fail/*.edit; do
        [[ -f $edit ]] || continue
        log=$kept/$({ echo "${sums[$crate]} $edit"; cat "$edit"; } | sha256sum | cut -c 1-64).log
        mkdir -p "$logs/$crate"
        echo "$log" >"$logs/$crate/$(basename "$edit" .edit).kept"
        if [[ -f $log ]]; then
            touch "$log"
            continue
        fi
        new=$((new + 1))
        if [[ $new == 1 ]] && ! (cd "crates/$crate" && rt check) >"$copies/check" 2>&1; then
            echo "wrong logs: crates/$crate is not proved:"
            grep -E '^fn .*: (no proof|not proved)|: error(\[|: )|^rt: ' "$copies/check" | head -n 5
            failed=1
            break
        fi
        todo+=("$log $edit $crate${below[$crate]}")
    done
done

if [[ ${#todo[@]} -gt 0 ]]; then
    export -f sum_of_files apply check_edit
    export copies
    # shellcheck disable=SC2016
    printf '%s\n' "${todo[@]}" | xargs -P "${JOBS:-$(nproc)}" --process-slot-var=SLOT -L 1 bash -c 'set -euo pipefail; check_edit "$@"' _ || failed=1
fi

# The logs themselves: of an edit that came to nothing above, none.
made=0
for name in "$logs"/*/*.kept; do
    log=$(<"$name")
    rm -f "$name" "${name%.kept}.log"
    [[ ! -f $log ]] || { cp "$log" "${name%.kept}.log"; made=$((made + 1)); }
done
find "$kept" -name '*.log' -mtime +30 -delete
[[ $failed == 0 ]] || exit 1
echo "wrong logs: ${#todo[@]} edits tried in this run, $((made - ${#todo[@]})) kept from earlier runs"

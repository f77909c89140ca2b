#!/usr/bin/env bash
# shellcheck disable=SC2016
# tests/links.sh: the documents cite what exists.
# - Every link of a document to a file of the repository leads to a file or folder.
# - In docs/PROMISES.md every name with a link stands in the file that it links to: a mistake as one of that edit, any other as a word.
# - Every name that docs/PROMISES.md uses as a link has one, and it cites every mistake under must-fail/.
# Then it shows that it can fail: it refuses copies of the documents, each with one change.
set -euo pipefail
cd "$(dirname "$0")/.."
root=$PWD
folder=$(mktemp -d)
trap 'rm -rf "$folder"' EXIT
documents=(README.md CONTRIBUTING.md docs/*.md docs/landings/README.md examples/README.md bindings/rust/README.md tests/README.md)

# The links of a document, a line each: the path as the document has it.
links_of() { # DOCUMENT
    grep -oE '\]\([^)#: ]+[^): ]*\)' "$1" | sed -E 's/^\]\(//; s/\)$//; s/#.*//' || true
    sed -nE 's/^\[[^]]+\]: ([^ ]+)$/\1/p' "$1"
}

# What is wrong with the links of the documents in a folder, a line each.
look_at_links() { # FOLDER
    local document path
    for document in "${documents[@]}"; do
        while read -r path; do
            [ -e "$root/$(dirname "$document")/$path" ] || echo "$document: no $path"
        done < <(links_of "$1/$document" | sort -u)
    done
}

# What is wrong with the names of docs/PROMISES.md, a line each.
look_at_names() { # FOLDER
    local label path name promises=$1/docs/PROMISES.md
    while IFS=$'\t' read -r label path; do
        name=${label%% *}
        name=${name//\`/}
        case $path in
        *.edit) grep -q "^# $name, " "$root/docs/$path" || echo "PROMISES: no mistake $name in $path" ;;
        *) grep -qF -- "$name" "$root/docs/$path" || echo "PROMISES: no $name in $path" ;;
        esac
    done < <(sed -nE 's/^\[([^]]+)\]: ([^ ]+)$/\1\t\2/p' "$promises")
    comm -13 <(sed -nE 's/^\[([^]]+)\]: .*/\1/p' "$promises" | sort -u) \
        <(sed -E '/^\[[^]]*\]: /d; s/\[[^]]*\]\([^)]*\)//g; s/&\[u8\]//g' "$promises" | grep -oE '\[[^]]+\]\[[^]]+\]|\[`?[A-Za-z_◌][A-Za-z0-9_◌-]*`?\]' | sed -E 's/.*\[//; s/\]$//' | sort -u) |
        sed 's/^/PROMISES: no link for /'
    comm -13 <(sed -nE 's/^\[`?([^] `]+).*\]: .*\.edit$/\1/p' "$promises" | sort -u) \
        <(sed -nE 's/^# ([a-z0-9_]+), refused at .*/\1/p' crates/*/must-fail/*.edit | sort -u) |
        sed 's/^/PROMISES: does not cite /'
}

look_at() { # FOLDER
    local wrong
    wrong=$(look_at_links "$1"; look_at_names "$1")
    [ -z "$wrong" ] || { echo "$wrong"; return 1; }
}

look_at .

# The documents, with the lines of docs/PROMISES.md that are changed below.
right=$folder/right
mkdir "$right"
cp --parents "${documents[@]}" "$right"
sed -n '/RefusedHolds\|wrong_number/p' docs/PROMISES.md >"$right/docs/PROMISES.md"

# A copy with one line changed is refused with this message.
changes=0
require_refused() { # DOCUMENT SED-SCRIPT MESSAGE
    rm -rf "$folder/copy"
    cp -R "$right" "$folder/copy"
    sed -i -E "$2" "$folder/copy/$1"
    if cmp -s "$right/$1" "$folder/copy/$1" || look_at "$right" | grep -qxF "$3"; then
        echo "links: $2 changes nothing of $1" >&2
        exit 1
    fi
    if look_at "$folder/copy" >"$folder/out" || ! grep -qxF "$3" "$folder/out"; then
        echo "links: $1 with $2 was not refused by: $3" >&2
        exit 1
    fi
    changes=$((changes + 1))
}
require_refused README.md 's|\(docs/PROMISES.md\)|(docs/PROMISE.md)|' 'README.md: no docs/PROMISE.md'
require_refused docs/PROMISES.md '/^\[`RefusedHolds`\]: /s|Demand1|Demand3|' 'PROMISES: no RefusedHolds in ../crates/theorems/specs/Demand3.antt'
require_refused docs/PROMISES.md '/^\[`RefusedHolds`\]: /d' 'PROMISES: no link for `RefusedHolds`'
require_refused docs/PROMISES.md '/^\[wrong_number\]: /s|wrong_number\.edit|../../tables/must-fail/tables.edit|' \
    'PROMISES: no mistake wrong_number in ../crates/refusals/must-fail/../../tables/must-fail/tables.edit'
require_refused docs/PROMISES.md 's/^\[wrong_number\]: .*//' 'PROMISES: does not cite wrong_number'

echo "links: $(for document in "${documents[@]}"; do links_of "$document"; done | wc -l) links lead to what they name; $changes wrong copies refused"

#!/usr/bin/env bash
# shellcheck disable=SC2016
# tests/wrong_edits.sh: tests that wrong_programs.sh refuses edits that prove nothing. It writes a crate of two functions and a definition,
# with edits and the logs of their checks, which must pass; then each change to one of these files must be refused.
set -euo pipefail
cd "$(dirname "$0")"
folder=$(mktemp -d)
trap 'rm -rf "$folder"' EXIT
right=$folder/right wrong=$folder/wrong
mkdir -p "$right"/{crates/sums/{src,specs,proofs/twice,must-fail},logs/sums}
cd "$right"

cat >crates/sums/src/lib.rt <<'END'
fn add(a: u32, b: u32) -> u32
    requires { a + b < 100 }
{
    a + b
}

fn twice(a: u32) -> u32
{
    add(a, a)
}
END
cat >crates/sums/specs/Sum.antt <<'END'
unfoldable pub sum : ℕ → ℕ → ℕ
sum a b = a + b
END
echo 'unfolding sum' >crates/sums/proofs/twice/Answers.antt

# Wrong code in two functions; in one whose proof the checker looks for itself; a wrong definition, refuted by a law; a wrong clause.
cat >crates/sums/must-fail/code.edit <<'END'
# product, refused at add
file: src/lib.rt
old:     a + b
new:     a * b
# first_alone, refused at twice
old:     add(a, a)
new:     add(a, 0)
END
cat >logs/sums/code.log <<'END'
note: ./proofs/add/Answers.antt:2: `add-1` is rattle's own name, not the source's, and may change
./proofs/add/Answers.antt:3:5: error: `returns`: the two types differ
  expected type `a + b`
./proofs/add/Answers.antt:6:5: error: 1 declaration that depends on `returns`, which was not admitted, was not checked: more
./proofs/twice/Answers.antt:3:5: error: `returns`: the goal does not follow
./proofs/thrice/Answers.antt:6:5: error: 1 declaration that depends on `returns`, which was not admitted, was not checked: returns
note: src/lib.rt:4:5: it is not proved that what the function ensures holds when it returns (`returns`)
fn sums::add: not proved
fn sums::twice: not proved; it calls `sums::add`, which is not proved
logic=not-proved
END
cat >crates/sums/must-fail/proofless.edit <<'END'
# product, refused at add
file: src/lib.rt
old:     a + b
new:     a * b
END
cat >logs/sums/proofless.log <<'END'
fn sums::add: no proof: expected answers in ./proofs/add/Answers.antt; `search` did not prove `returns`
fn sums::twice: no proof: it calls `sums::add`, which is not proved
logic=not-proved
END
cat >crates/sums/must-fail/definition.edit <<'END'
# difference, refused at Laws/Sum.antt
file: specs/Sum.antt
old: sum a b = a + b
new: sum a b = a - b
END
cat >logs/sums/definition.log <<'END'
./proofs/Laws/Sum.antt:7:5: error: `sum-commutes`: the two types differ
./proofs/add/Answers.antt:3:5: error: `returns`: the two types differ
fn sums::twice: no proof: expected answers in ./proofs/twice/Answers.antt; `search` did not prove `returns`
logic=not-proved
END
cat >crates/sums/must-fail/clause.edit <<'END'
# larger_sums, refused at add
file: src/lib.rt
old: a + b < 100
new: a + b < 1000
END
cat >logs/sums/clause.log <<'END'
./proofs/twice/Answers.antt:3:5: error: `add-requires`: the goal does not follow
fn sums::add: no proof: expected answers in ./proofs/add/Answers.antt; `search` did not prove `overflow_add-result`
fn sums::thrice: no proof: expected answers in ./proofs/thrice/Answers.antt; `search` did not prove `add-requires`; it calls `sums::add`, which is not proved
logic=not-proved
END
cd - >/dev/null

passes() {
    touch "$1"/logs/sums/*.log
    ./wrong_programs.sh "$1/crates" "$1/logs" >"$folder/out" 2>&1
}
if ! passes "$right"; then
    echo "wrong_edits: edits that are right were refused:" >&2
    cat "$folder/out" >&2
    exit 1
fi

# Changes a file by a sed script; wrong_programs.sh must refuse it with these words.
changes=0
require_refused() { # FILE EDIT WORDS
    rm -rf "$wrong"
    cp -R "$right" "$wrong"
    sed -Ei "$2" "$wrong/$1"
    if cmp -s "$right/$1" "$wrong/$1"; then
        echo "wrong_edits: $2 changes nothing of $1" >&2
        exit 1
    fi
    if passes "$wrong" || ! grep -qF "$3" "$folder/out"; then
        echo "wrong_edits: $1 with $2 was not refused by: $3" >&2
        cat "$folder/out" >&2
        exit 1
    fi
    changes=$((changes + 1))
}
edits=crates/sums/must-fail

# The names and paths that an edit gives.
require_refused $edits/code.edit '1d' 'a line under no name'
require_refused $edits/code.edit 's/^# first_alone.*/# the first alone/' 'not a line of an edit'
require_refused $edits/code.edit '/first_alone/d' 'a mistake in two places'
require_refused $edits/code.edit 's/at twice$/at add/' 'a second mistake at add'
require_refused $edits/code.edit 's/^# first_alone/# product/' 'a second mistake product'
require_refused $edits/code.edit '$a # third, refused at thrice' 'a mistake has no replacement'
require_refused $edits/code.edit 's/^old:     a \+ b/old:     a + c/' 'the old text is not in its file'
require_refused $edits/code.edit 's/at twice$/at thrice/' 'first_alone was not refused at thrice'
require_refused $edits/definition.edit 's/at .*/at add/' 'its first error is at Laws/Sum.antt'
require_refused $edits/definition.edit '$a # first_alone, refused at twice\nfile: src/lib.rt\nold: add(a, a)\nnew: add(a, 0)' 'first_alone is checked against sum'
require_refused $edits/clause.edit 's/at add/at thrice/' 'its first error is at add'
require_refused $edits/clause.edit '$a # first_alone, refused at twice\nold: add(a, a)\nnew: add(a, 0)' 'first_alone is checked against add'

# What the checker said: nothing at the path, something at another, or that the proof doesn't fit the code.
require_refused logs/sums/code.log '/proofs\/twice/d' 'first_alone was not refused at twice'
require_refused logs/sums/code.log 's/(twice.*error: ).*/\1`twice`: `add` was not admitted (it was rejected)/' 'first_alone was not refused at twice'
require_refused logs/sums/code.log 's/(twice.*error: ).*/\12 declarations that depend on `add`, which was not admitted, were not checked: a, b/' 'first_alone was not refused at twice'
require_refused logs/sums/code.log 's/(twice.*error: ).*/\11 declaration that depends on `add`, which was rejected, was not checked: a, b/' 'first_alone was not refused at twice'
require_refused logs/sums/code.log 's/(thrice.*error: ).*/\1`returns`: the two types differ/' 'an error at thrice, where it has no mistake'
require_refused logs/sums/code.log 's/.*thrice.*/src\/lib.rt:3:5: error[E0425]: cannot find value `c`/' 'an error at src/lib.rt, where it has no mistake'
require_refused logs/sums/code.log 's/(`returns`: )the two types differ/\1`goal.returns`: module `Goals` has no `returns` that can be named from here/' 'product shows nothing'
require_refused logs/sums/code.log 's/(`returns`: )the two types differ/\1`sum` is not in scope/' 'product shows nothing'
require_refused logs/sums/code.log 's/expected type.*/has no field `sum`/' 'product shows nothing'
require_refused logs/sums/code.log 's/^note: src.*/note: .\/proofs\/add\/Answers.antt: `returns` is no name that rattle asks for in `sums::add`, so rattle does not use it/' \
    'product shows nothing'
require_refused logs/sums/code.log 's/^note: src.*/note: .\/proofs\/twice\/Invariants.antt: `invariant-loop` is no name that rattle asks for in `sums::twice`/' \
    'first_alone shows nothing'
require_refused logs/sums/code.log 's/add\/Answers(.antt:3:5: error: `)returns/add\/Invariants\1invariant-loop/' 'product shows nothing'
require_refused logs/sums/code.log '/^logic=/d' 'its check came to no verdict'
require_refused logs/sums/proofless.log 's/(sums::add.*: ).*/\1it calls `sums::less`, which is not proved/' 'product was not refused at add'
require_refused logs/sums/proofless.log '/^fn/d; s/not-proved/proved functions=2/' 'product was not refused at add'
require_refused logs/sums/definition.log '1!{2!b}; 1{h; d}; G' 'its first error is at add'
echo "wrong programs: $changes edits and logs that show nothing refused"

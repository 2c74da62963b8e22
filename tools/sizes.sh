#!/bin/sh
# Prints the table of sizes of docs/maintainers/HOUSE.md: lines of code, definitions and proofs of each crate as wc
# counts them, and the wrong bodies in must-fail; behind the sum those of the cases, of hostile use and of the tests.
set -eu
cd -- "$(dirname -- "$0")/../crates"

# The lines of all files of a folder, if it is there, with an ending.
lines() {
    if [ -d "$1" ]; then find "$1" -name "*.$2" -exec cat {} + | wc -l; else echo 0; fi
}

row() { printf '| %s | %d | %d | %d | %d |\n' "$@"; }

src=0 specs=0 proofs=0 edits=0 shared=
printf '| Crate | `src` | `specs` | `proofs` | Edits in `must-fail` |\n|---|---|---|---|---|\n'
for name in *; do
    set -- "$(lines "$name/src" rt)" "$(lines "$name/specs" antt)" "$(lines "$name/proofs" antt)" \
        "$(find "$name" -path "$name/must-fail/*.edit" | wc -l)"
    if [ "$name" = siman_tests ]; then
        tests="the tests and uses of the laws, \`$name\`: $(grep -r '#\[test\]' "$name/src" | wc -l) tests"
        last=$(row "$tests" "$@")
        continue
    fi
    if [ "$name" = siman_cases ]; then
        cases="the program of the cases, \`$name\`: $(cat "$name"/data/*.cases | grep -c '^case ') of them, in $(cat "$name"/data/*.cases | wc -l) lines"
        tried=$(row "$cases" "$@")
        continue
    fi
    case $name in plain_check | siman_refusals | siman_trials)
        shared="${shared:+$shared
}$(row "what these programs call, \`$name\`" "$@")"
        continue
        ;;
    esac
    if [ "$name" = siman_hostile ]; then
        hostile=$(row "the program for hostile use, \`$name\`" "$@")
        continue
    fi
    row "\`$name\`" "$@"
    src=$((src + $1)) specs=$((specs + $2)) proofs=$((proofs + $3)) edits=$((edits + $4))
done
row 'in all' "$src" "$specs" "$proofs" "$edits"
printf '%s\n' "$tried" "$hostile" "$shared" "$last"

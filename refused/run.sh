#!/bin/sh
# Each refused/NAME/*.edit is applied to a copy of crates/NAME, which the compiler must then refuse with the error that the
# edit names: such an error never reaches the prover.
root=$(cd "$(dirname "$0")/.." && pwd)
bad=0
for edit in "$root"/refused/*/*.edit; do
    name=$(basename "$(dirname "$edit")")
    label=$name/$(basename "$edit" .edit)
    want=$(sed -n 's/^error: //p' "$edit")
    file=$(sed -n 's/^file: //p' "$edit")
    w=$(mktemp -d)
    (cd "$root" && tar cf - --exclude=out crates crates.txt) | tar xf - -C "$w"
    OLD=$(sed -n 's/^old: //p' "$edit") NEW=$(sed -n 's/^new: //p' "$edit") awk '
        { text = text $0 "\n" }
        END {
            old = ENVIRON["OLD"]
            at = index(text, old)
            if (!at) exit 3
            printf "%s%s%s", substr(text, 1, at - 1), ENVIRON["NEW"], substr(text, at + length(old))
        }' "$root/crates/$name/$file" >"$w/crates/$name/$file" || bad=1
    out=$(cd "$w" && cd "crates/$name" && rt try 2>&1)
    status=$?
    if [ $status -ne 0 ] && printf '%s\n' "$out" | grep -q "error\[$want\]"; then
        echo "refused with $want: $label"
    else
        echo "NOT REFUSED with $want: $label"
        printf '%s\n' "$out" | tail -5
        bad=1
    fi
    rm -rf "$w"
done
exit $bad

#!/usr/bin/env bash
# Tries each edit of the program `workshop` in .ci/must-not-build on a copy: the build must refuse it, with the
# words that the edit names. The program as it stands must build. `rt try` builds and runs without any proof, so
# what it refuses is refused by the types and moves alone.
set -u
cd "$(dirname "$0")/.." || exit 2
copy=$(mktemp -d) || exit 2
trap 'rm -rf "$copy"' EXIT
tar -c --exclude='crates/*/out' crates crates.txt | tar -x -C "$copy" || exit 2
main=crates/workshop/src/main.rt
bad=0

# Builds and runs the copy's program; fails where it does not build.
tried() {
    (cd "$copy/crates/workshop" && rt try) > "$copy/log" 2>&1 < /dev/null
}

if ! tried; then
    echo "must not build: the program does not build as it stands"
    bad=1
fi
for edit in .ci/must-not-build/*; do
    name=$(basename "$edit")
    EDIT=$edit awk '
        BEGIN {
            while ((getline line < ENVIRON["EDIT"]) > 0) {
                if (line ~ /^old: /) old = substr(line, 6)
                if (line ~ /^new: /) new = substr(line, 6)
            }
        }
        { at = index($0, old); if (at) { n++; $0 = substr($0, 1, at - 1) new substr($0, at + length(old)) } print }
        END { if (n != 1) exit 1 }' "$main" > "$copy/$main" || { echo "must not build $name: bad edit"; bad=1; continue; }
    words=$(sed -n 's/^error: //p' "$edit")
    if tried; then
        echo "must not build $name: NOT REFUSED"
        bad=1
    elif grep -a "main.rt:.*error" "$copy/log" | grep -aq -- "$words"; then
        echo "must not build $name: refused, as it must be"
    else
        echo "must not build $name: refused for another reason"
        grep -a "error" "$copy/log" | head -n 3 | cut -c1-300
        bad=1
    fi
done
exit $bad

#!/usr/bin/env bash
# Tries the edits of edits/, which the gate leaves out: those of all crates, or of the crates that are
# named. The check of a crate must refuse each edit of it. Works in a clone of its own, of what is
# committed, and ends with the status of `rt must-fail`: 0 where each was refused.
cd "$(dirname "$0")/.." || exit 2

names=("$@")
if [ "${#names[@]}" -eq 0 ]; then
    for folder in edits/*/; do
        names+=("$(basename "$folder")")
    done
fi

for name in "${names[@]}"; do
    if ! ls "edits/$name/"*.edit >/dev/null 2>&1; then
        echo "try_edits: edits/ has none of a crate $name" >&2
        exit 2
    fi
done

room=$(mktemp -d) || exit 2
trap 'rm -rf "$room"' EXIT
git clone --quiet . "$room/clone" || exit 2
cd "$room/clone" || exit 2

# Those that stand in must-fail/ are left to the gate.
for name in "${names[@]}"; do
    rm -rf "crates/$name/must-fail"
    mkdir "crates/$name/must-fail" || exit 2
    mv "edits/$name/"*.edit "crates/$name/must-fail/" || exit 2
done

rt must-fail "${names[@]}"

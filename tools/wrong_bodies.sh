#!/usr/bin/env bash
# wrong_bodies.sh NAME ..: tries all wrong bodies of these crates, those of wrong_bodies/NAME and those of crates/NAME/must-fail: the check of the
# crate has to refuse each. It works on a copy and begins with what `rt check` kept. At the end it prints how many were refused and which weren't,
# and its status is that of `rt must-fail`.
set -euo pipefail
[ $# -gt 0 ] || { sed -n '2,4s/^# //p' "$0" >&2; exit 2; }
top=$(cd "$(dirname "$0")/.." && pwd)
work=$(mktemp -d)
trap 'rm -rf "$work"' EXIT
(cd "$top" && tar cf - --exclude=out crates crates.txt HANDLES) | tar xf - -C "$work"
for name in "$@"; do
    [ -d "$work/crates/$name" ] || { echo "no crate $name" >&2; exit 2; }
    mkdir -p "$work/crates/$name/must-fail"
    for body in "$top/wrong_bodies/$name"/*.edit; do
        [ ! -e "$body" ] || cp "$body" "$work/crates/$name/must-fail"
    done
done
cd "$work"
status=0
rt must-fail "$@" 2>&1 | tee log || status=$?
refused=$(grep -c '\.edit: refused, as it must be' log) || true
echo "$refused of $(find "${@/#/crates/}" -path '*/must-fail/*.edit' | wc -l) wrong bodies were refused"
grep 'NOT REFUSED\|BAD EDIT\|NOT TRIED' log || true
exit $status

#!/usr/bin/env bash
# install.sh [PREFIX]: installs the program that `tools/example.sh` built as PREFIX/bin/cyclesim, a page for `man cyclesim`, which is made of
# docs/running.md, and the pages of docs/ in PREFIX/share/doc/cyclesim. Without PREFIX it is /usr/local.
set -eu
top=$(cd "$(dirname "$0")/.." && pwd)
prefix=${1:-/usr/local}
program=$top/crates/cyclesim/out/cyclesim
[ -x "$program" ] || { echo "there is no $program: tools/example.sh builds it" >&2; exit 1; }
pages=$prefix/share/doc/cyclesim
manual=$(mktemp)
trap 'rm -f "$manual"' EXIT
python3 -B "$top/tools/man_page.py" cyclesim 'runs a Verilog design under stimuli, and writes a waveform for each' "$top/docs/running.md" > "$manual"
printf '.SH SEE ALSO\nThe pages of docs/ that are named here are in %s.\n' "$pages" >> "$manual"
install -D -m 755 "$program" "$prefix/bin/cyclesim"
install -D -m 644 "$manual" "$prefix/share/man/man1/cyclesim.1"
install -D -m 644 -t "$pages" "$top"/docs/*.md
echo "installed: $prefix/bin/cyclesim, man cyclesim, $pages"

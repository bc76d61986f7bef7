#!/bin/sh
# A hundred generated loops through a program that knows `check`, for docs/MANY-LOOPS.md: time, statuses and bands.
# usage: compare/hundred.sh PROGRAM [AT ONCE]      for example: compare/hundred.sh crates/sil/out/sil 4
program=$(realpath "$1") || exit 2
top=$(cd "$(dirname "$0")/.." && pwd)
folder=$(mktemp -d) && cd "$folder" || exit 1
python3 "$top/tests/generator.py" 1 plant 100
start=$(date +%s.%N)
ls plant/*.toml | xargs -P "${2:-$(nproc)}" -I FILE sh -c '"$0" check "$1" > "${1%.toml}.report"' "$program" FILE
echo "xargs ended with $?"
echo "$start $(date +%s.%N)" | awk '{ printf "seconds %.1f\n", $2 - $1 }'
awk '/^pfd/ { sub(/.* \.\. [0-9.]+ /, ""); count[$0]++ } END { for (band in count) print count[band], "pfd", band }' \
    plant/*.report
awk '/^pfh/ { sub(/.* \.\. [0-9.]+ /, ""); count[$0]++ } END { for (band in count) print count[band], "pfh", band }' \
    plant/*.report
rm -r "$folder"

#!/usr/bin/env bash
# Measures the program outline on four shapes of script at three lengths. Needs: (cd crates/outline && rt run < /dev/null)
set -eu
cd "$(dirname "$0")/.."
dir=$(mktemp -d)
trap 'rm -rf "$dir"' EXIT
shape() {
  case $1 in
    statements) yes 'def x : A := f y' ;;
    one-statement) printf 'check '; yes '(f x)' ;;
    comments) yes -- '-- a line that says nothing' ;;
    no-tokens) yes '@' | tr -d '\n' ;;
  esac
}
for kind in statements one-statement comments no-tokens; do
  for size in 250000 500000 1000000; do
    shape $kind 2>/dev/null | head -c $size > "$dir/script" || true
    best=999999
    for _ in 1 2 3 4 5; do
      from=$(date +%s%N)
      crates/outline/out/outline < "$dir/script" > "$dir/out"
      to=$(date +%s%N)
      took=$(( (to - from) / 10000 ))
      [ $took -lt $best ] && best=$took
    done
    count=$(valgrind --tool=callgrind --callgrind-out-file=/dev/null crates/outline/out/outline < "$dir/script" 2>&1 > "$dir/out" | sed -n 's/.*Collected : *//p')
    printf '| %s | %d | %d | %d.%02d ms |\n' $kind $size "$count" $((best / 100)) $((best % 100))
  done
done

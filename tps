#!/usr/bin/env bash
# Runs the built program with these words. Where it isn't built, or a source is newer, it runs the sources without their proofs.
here=$(cd "$(dirname "${BASH_SOURCE[0]}")" && pwd)
crate=$here/crates/tps_cli
program=$crate/out/tps_cli
if [ -x "$program" ] && [ -z "$(find "$here"/crates.txt "$here"/crates/*/{src,specs,proofs} -newer "$program" -type f -print -quit 2> /dev/null)" ]; then
  exec "$program" "$@"
fi
if ! command -v rt > /dev/null; then
  echo "tps: the program isn't built, and Rattle's command rt isn't on the path to run its sources" >&2
  exit 70
fi
why='not built yet'
[ -x "$program" ] && why='built from older sources'
echo "tps: $why, so this answer comes from the sources without their proofs; ./build proves and builds" >&2
room=$(mktemp -d) || exit 70
trap 'rm -rf "$room"' EXIT
trap 'exit 130' INT TERM HUP

# The whole input, or one byte more than a command reads, since rt doesn't wait for a pipe that stays open; none where no command reads it.
case $#:${1-} in
  1:check | 1:translate | 1:verify | 1:show | 1:etps | [1-5]:prove) head -c 1048577 > "$room/input" ;;
  *) : > "$room/input" ;;
esac
(cd "$crate" && exec rt try -- "$@") < "$room/input" > "$room/output" 2> "$room/told"
status=$(sed -n 's/^run=ended status=\([0-9]*\) .*/\1/p' "$room/told" | tail -n 1)
if [ -z "$status" ]; then
  why=$(sed -n 's/^checked: no-answer: //p' "$room/told" | tail -n 1)
  echo "tps: no answer from the sources (${why:-$(tail -n 1 "$room/told")}); ./build makes the program, which has no such limit" >&2
  exit 70
fi
cat "$room/output"
exit "$status"

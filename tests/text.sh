#!/usr/bin/env bash
# Sessions as text for people: S1 and the README's example are the bytes that are run, and back again; bad text is refused with its line's number.
# Needs python3; without it the test is skipped (status 77), since the kit alone does not bring it.
set -eu
cd "$(dirname "$0")/.."
command -v python3 >/dev/null 2>&1 || { echo "no python3 here"; exit 77; }
for name in tests/sessions/S1 example/bench; do
  python3 tools/session_text.py to-bytes <"$name.txt" | cmp - "$name.session"
  python3 tools/session_text.py from-bytes <"$name.session" | python3 tools/session_text.py to-bytes | cmp - "$name.session"
done
if said=$(printf 'set-up 1 2 4\nadd 7 one 100 value 11\n' | python3 tools/session_text.py to-bytes 2>&1 >/dev/null); then
  echo "bad text was taken"
  exit 1
fi
case $said in
*"line 2"*) ;;
*) echo "no line's number in: $said"; exit 1 ;;
esac
echo "text and bytes agree"

#!/usr/bin/env bash
# sessions.sh [PROGRAM [ARGUMENT ..]]: every stored session through the session program, or through another command that speaks as it does (as
# oracle/target/release/reference): what it prints, byte for byte, and that it ends with status 0, which tools/run gives only where the program
# said nothing on standard error.
# tests/sessions is made by tools/make_sessions.py, tests/vectors by `compare write` of oracle/; the printouts of both are the reference's.
set -u
tests=$(cd "$(dirname "$0")" && pwd) || exit 1
# shellcheck source=tests/room.bash
. "$tests/room.bash"
if [ $# -eq 0 ]; then
  [ -x "$tests/../crates/session_main/out/session_main" ] || { echo "no crates/session_main/out/session_main: rt run in crates/session_main builds it"; exit 1; }
  set -- "$tests/../tools/run" session_main
  full=yes
fi
count=0

# one SESSION EXPECTED COMMAND..
one() {
  local session=$1 expected=$2
  shift 2
  count=$((count + 1))
  if ! "$@" <"$session" >"$room/printed"; then
    wrong "$session: exit status"
  elif ! cmp -s "$room/printed" "$expected"; then
    wrong "$session: another printout: $(cmp "$room/printed" "$expected" 2>&1)"
  fi
}

for s in "$tests"/sessions/*.session; do one "$s" "${s%.session}.out" "$@"; done
for s in "$tests"/vectors/*.session; do one "$s" "${s%.session}.printout" "$@"; done
one "$tests/../example/bench.session" "$tests/../example/bench.out" "$@"
# --full is the session program's own
[ -z "${full:-}" ] || one "$tests/full.session" "$tests/full.out" "$@" --full
echo "$count sessions, $bad differ"
[ "$count" -ge 400 ] && [ "$bad" -eq 0 ]

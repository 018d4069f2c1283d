#!/usr/bin/env bash
# A station talks to the session program over a pipe: each answer comes before the next record is sent, and a closed output ends it quietly.
set -u
cd "$(dirname "$0")" || exit 1
[ -x ../crates/session_main/out/session_main ] || { echo "no crates/session_main/out/session_main: rt run in crates/session_main builds it"; exit 1; }

# say HEX: these bytes to the program; hear TEXT: its next line, within five seconds
say() { printf "$(sed 's/../\\x&/g' <<<"$1")" >&4; }
hear() {
  local line
  IFS= read -r -t 5 -u 3 line || { echo "no answer where '$1' was expected"; exit 1; }
  [ "$line" = "$1" ] || { echo "'$line' where '$1' was expected"; exit 1; }
}

# bash forgets a coprocess's own descriptors when it ends, so they are kept as 3 and 4
coproc station { exec ../tools/run session_main; }
pid=$station_PID
exec 3<&"${station[0]}" 4>&"${station[1]}" {station[1]}>&-
say 01
say 0008000100000002
say 0004
hear "ok"
say 000907
say 0000000000000000
hear "next -"
say 000403030307
hear "selected 0"
say 000109
hear "refused 1"
say 0009
exec 4>&-
hear "refused 1"
wait "$pid" || { echo "ended with status $?"; exit 1; }

# 100,000 records whose answers nobody reads: it ends by itself or by the pipe's own signal (141), and says nothing
said=$({ { printf '\x01'; for _ in {1..100000}; do printf '\x00\x01\x09'; done; } | ../tools/run session_main | head -n 1 >/dev/null; echo "status ${PIPESTATUS[1]}"; } 2>&1)
case $said in
"status 0" | "status 141") ;;
*) echo "a closed output: $said"; exit 1 ;;
esac
echo "answers come one by one; a closed output ends the program quietly"

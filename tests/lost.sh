#!/usr/bin/env bash
# Nothing is lost in silence: a write or read of the session program that fails is told in one line on standard error, and tools/run and ./session end
# with status 1; a closed pipe stays quiet; input that comes byte by byte is answered as at once; an argument that it does not know prints its usage.
set -u
cd "$(dirname "$0")/.." || exit 1
[ -x crates/session_main/out/session_main ] || { echo "no crates/session_main/out/session_main: rt run in crates/session_main builds it"; exit 1; }
. tests/room.bash

# told NAME STATUS WORDS: status 1, and one line of the program's with these words in the file `said`
told() {
  [ "$2" -eq 1 ] || wrong "$1: status $2, not 1"
  [ "$(wc -l <"$room/said")" -eq 1 ] || wrong "$1: not one line on standard error: '$(cat "$room/said")'"
  case $(cat "$room/said") in "session_main: "*"$3"*) ;; *) wrong "$1: '$3' is not told: '$(cat "$room/said")'" ;; esac
}

# ---- a write that fails
tools/run session_main <example/bench.session >/dev/full 2>"$room/said"
told "a full disk, tools/run" $? "No space left on device"
./session example/bench.session >/dev/full 2>"$room/said"
told "a full disk, ./session" $? "No space left on device"
tools/run session_main --full <tests/full.session >/dev/full 2>"$room/said"
told "a full disk, --full" $? "No space left on device"
# the line that ends a session with a wrong version is written by a way of its own
printf '\002' | tools/run session_main >/dev/full 2>"$room/said"
told "a full disk, a wrong version" $? "No space left on device"

# ---- a read that fails: of the first byte, and, where there is python3, in the middle of a session
tools/run session_main <. >"$room/printed" 2>"$room/said"
told "a folder as input, tools/run" $? "Is a directory"
./session <. >"$room/printed" 2>"$room/said"
told "a folder as input, ./session" $? "Is a directory"
if command -v python3 >/dev/null 2>&1; then
  # Of a terminal's two ends, the program reads the one whose reads fail once the other is closed: before a record's length, within it, within the
  # record, and within the length of the one behind an answered set-up
  for front in 01 0100 0100080001 010008000100000002000400; do
    python3 - "$front" 2>"$room/said" <<'END'
import os, pty, subprocess, sys, tty
given = bytes.fromhex(sys.argv[1])
program, station = pty.openpty()
tty.setraw(station)
os.write(station, given)
with subprocess.Popen(["tools/run", "session_main"], stdin=program, stdout=subprocess.PIPE) as run:
    os.close(program)
    if len(given) > 11:
        run.stdout.readline()  # the set-up's answer: the program reads on
    os.close(station)
    run.stdout.read()
sys.exit(run.returncode)
END
    told "a read that fails after the bytes $front" $? "Input/output error"
  done
fi

# ---- a closed pipe says nothing, by its signal or, where that is ignored, by the failed write; 20,000 records, whose answers a pipe can hold no more
{ printf '\001' && for _ in {1..20000}; do printf '\000\001\011'; done; } >"$room/many"
for way in default ignored; do
  (
    [ $way = default ] || trap '' PIPE
    tools/run session_main <"$room/many" 2>"$room/said"
    echo $? >"$room/status"
  ) | head -n 1 >"$room/printed"
  case $(cat "$room/status") in 0 | 141) ;; *) wrong "a closed pipe, $way: status $(cat "$room/status")" ;; esac
  [ ! -s "$room/said" ] || wrong "a closed pipe, $way: said '$(cat "$room/said")'"
done

# ---- byte by byte: the next one is sent some milliseconds after the one before, by a read that nothing answers
mkfifo "$room/never"
exec 9<>"$room/never"
for byte in $(od -An -v -t x1 tests/sessions/S1.session); do
  # shellcheck disable=SC2059
  printf "\\x$byte"
  read -r -t 0.005 -u 9
done | tools/run session_main >"$room/printed" 2>"$room/said" || wrong "byte by byte: status $?, said '$(cat "$room/said")'"
cmp "$room/printed" tests/sessions/S1.out || wrong "byte by byte: another printout"

# ---- arguments: --full alone means full, anything else prints the usage and reads nothing
tools/run session_main --full <tests/full.session 2>&1 | cmp - tests/full.out || wrong "--full: another printout"
# usage WORD..
usage() {
  tools/run session_main "$@" <example/bench.session >"$room/printed" 2>"$room/said" && wrong "arguments '$*': status 0"
  case $(cat "$room/said") in *usage*) ;; *) wrong "arguments '$*': no usage: '$(cat "$room/said")'" ;; esac
  [ ! -s "$room/printed" ] || wrong "arguments '$*': printed $(wc -l <"$room/printed") lines"
}
usage --nonsense
usage --ful
usage --fulls
usage ''
usage --full --full
usage --full example/bench.session

[ "$bad" -eq 0 ] && echo "failed writes and reads are told, a closed pipe is not; bytes may come one by one; unknown arguments print the usage"

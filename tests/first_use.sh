#!/usr/bin/env bash
# ./session on first use, with a stand-in for rt and a program that it "builds": what it says while it builds, what it shows where that fails, and what
# it does not even start to build.
set -u
cd "$(dirname "$0")/.." || exit 1
. tests/room.bash

# A repository of three crates that the program is made of, and one that it is not; kit libraries do not count.
mkdir -p "$room/repo/tools" "$room/repo/crates/session_main" "$room/bin"
cp session "$room/repo/session"
cp tools/run "$room/repo/tools/run"
cat >"$room/repo/crates.txt" <<'END'
# a comment: not a crate
lists:
other: lists
model: lists
session_main: model io
END
printf '#!/bin/sh\necho x86_64\n' >"$room/bin/uname"
cat >"$room/bin/rt" <<'END'
#!/bin/sh
echo "called: $*" >>"$ROOM/called"
[ "$(pwd)" = "$ROOM/repo/crates/session_main" ] || echo "called in $(pwd)"
cat >/dev/null # rt must not eat the session
echo "rt: chose --jobs 2 for lists"
echo "logic=proved functions=0 sum=1"
echo "fn model::step: proved"
echo "logic=proved functions=1 sum=1"
[ -z "${FAILS:-}" ] || { echo "main.rt:23:15: error" >&2; echo "logic=not-proved"; exit 1; }
echo "logic=proved functions=2 sum=1"
echo "rt: running out/session_main; to give it other input, run that file yourself"
echo "refused 1"
mkdir -p out
printf '#!/bin/sh\nexec cat\n' >out/session_main
chmod +x out/session_main
END
chmod +x "$room/bin/uname" "$room/bin/rt"
echo "a session" >"$room/a session"

# session WORD..: what it printed, said and its status are kept
session() {
  ROOM=$room PATH=$room/bin:$PATH "$room/repo/session" "$@" >"$room/printed" 2>"$room/said"
  status=$?
}

# refused NAME STATUS WORDS: one line on standard error with these words, and nothing built
refused() {
  [ "$status" -eq "$2" ] || wrong "$1: status $status, not $2"
  [ "$(wc -l <"$room/said")" -eq 1 ] || wrong "$1: not one line: '$(cat "$room/said")'"
  case $(cat "$room/said") in *"$3"*) ;; *) wrong "$1: '$3' is not in '$(cat "$room/said")'" ;; esac
  [ ! -e "$room/called" ] || wrong "$1: it began to build"
}

session "$room/nothing"
refused "no such file" 1 "session: there is no file $room/nothing"
session "$room"
refused "a folder" 1 "session: cannot read $room"
session --nonsense
refused "an unknown argument" 2 "usage: ./session [FILE]"
session "$room/a session" more
refused "two arguments" 2 "usage: ./session [FILE]"

FAILS=yes session "$room/a session"
[ "$status" -eq 1 ] || wrong "a build that fails: status $status"
[ ! -s "$room/printed" ] || wrong "a build that fails: printed '$(cat "$room/printed")'"
for line in "session: 2 of 3 crates proved" "main.rt:23:15: error" "logic=not-proved"; do
  grep -qxF "$line" "$room/said" || wrong "a build that fails: no line '$line'"
done

: >"$room/called"
session "$room/a session"
[ "$status" -eq 0 ] || wrong "first use: status $status"
cmp -s "$room/printed" "$room/a session" || wrong "first use: printed '$(cat "$room/printed")'"
printf 'session: %s\n' "proving and building the program, some minutes, once" "1 of 3 crates proved" "2 of 3 crates proved" "3 of 3 crates proved" |
  cmp -s - "$room/said" || wrong "first use: said '$(cat "$room/said")'"
[ "$(cat "$room/called")" = "called: run" ] || wrong "first use: rt was $(cat "$room/called")"

# then it starts at once; and standard input is the program's, also where it is built first
session <"$room/a session"
{ [ "$status" -eq 0 ] && cmp -s "$room/printed" "$room/a session" && [ ! -s "$room/said" ]; } || wrong "second use: status $status, said '$(cat "$room/said")'"
rm -r "$room/repo/crates/session_main/out"
session <"$room/a session"
cmp -s "$room/printed" "$room/a session" || wrong "standard input on first use: printed '$(cat "$room/printed")'"

[ "$bad" -eq 0 ] && echo "./session counts the crates while it builds, and says what failed"

#!/usr/bin/env bash
# tools/run with stand-ins for the machine, the kit and the program, so that each way is tried on every machine: the emulated way where `uname -m`
# names another processor, the direct one where it says x86_64; what keeps a program from starting; arguments, bytes, status, words and signals.
set -u
cd "$(dirname "$0")/.." || exit 1
. tests/room.bash

# script FILE: a program of the lines that follow
script() {
  mkdir -p "$(dirname "$1")"
  { echo '#!/bin/sh' && cat; } >"$1"
  chmod +x "$1"
}

# A repository of its own, so that no built program is touched; in tools/ alone what the runner may call, and no rt.
mkdir -p "$room/repo/tools" "$room/tools" "$room/links" "$room/kit/bin" "$room/kit/on/aarch64/toolchain/bin"
cp tools/run "$room/repo/tools/run"
for tool in sh cat env sed readlink sleep; do ln -s "$(command -v "$tool")" "$room/tools/$tool"; done
# shellcheck disable=SC2016
script "$room/tools/uname" <<<'[ "$*" = -m ] && echo "$MACHINE"'
script "$room/kit/bin/rt" <<<'echo "the runner calls no rt" >&2'
# The emulator writes down its words and the settings that it sees, and starts the program, its fourth word.
script "$room/kit/on/aarch64/toolchain/bin/qemu-x86_64" <<END
printf '%s\n' "\$@" >"$room/emulated"
env | sed -n 's/^\(QEMU_.*\|LD_PRELOAD=.*\)/\1/p' >"$room/settings"
shift 3
exec "\$@"
END
script "$room/repo/crates/words/out/words" <<<'printf "[%s]" "$@"'
script "$room/repo/crates/through/out/through" <<<'exec cat'
script "$room/repo/crates/teller/out/teller" <<<'echo out; echo "teller: write: No space left on device" >&2; echo "and more" >&2'
script "$room/repo/crates/no_newline/out/no_newline" <<<'printf "usage: no_newline" >&2'
script "$room/repo/crates/seven/out/seven" <<<'echo "seven: odd" >&2; exit 7'
script "$room/repo/crates/closed/out/closed" <<<'kill -PIPE $$'
script "$room/repo/crates/waits/out/waits" <<END
echo \$\$ >"$room/waits"
exec sleep 20
END

# run MACHINE WORD..: the runner there, with the stand-in kit by RATTLE_HOME; what it printed, said and its status are kept
run() {
  local machine=$1
  shift
  env PATH="${way:-$room/tools}" MACHINE="$machine" ${kit+RATTLE_HOME="$kit"} "$room/repo/tools/run" "$@" >"$room/printed" 2>"$room/said"
  status=$?
}

# is NAME STATUS PRINTED SAID: what the last run must have given
is() {
  [ "$status" -eq "$2" ] || wrong "$1: status $status, not $2"
  [ "$(cat "$room/printed")" = "$3" ] || wrong "$1: printed '$(cat "$room/printed")', not '$3'"
  [ "$(cat "$room/said")" = "$4" ] || wrong "$1: said '$(cat "$room/said")', not '$4'"
}

# refused NAME WORDS: not started, one line with these words
refused() {
  [ "$status" -ne 0 ] || wrong "$1: status 0"
  [ ! -s "$room/printed" ] || wrong "$1: printed '$(cat "$room/printed")'"
  [ "$(wc -l <"$room/said")" -eq 1 ] || wrong "$1: not one line: '$(cat "$room/said")'"
  case $(cat "$room/said") in "run: "*"$2"*) ;; *) wrong "$1: '$2' is not in '$(cat "$room/said")'" ;; esac
}

# emulated NAME HOME: the emulator was called, by the kit in HOME, with its loader and libraries, the program and its arguments, whole
emulated() {
  local tools=$2/on/aarch64/toolchain
  [ -e "$room/emulated" ] || wrong "$1: the emulator was not called"
  printf '%s\n' "$tools/lib/ld-linux-x86-64.so.2" --library-path "$tools/lib" "$room/repo/tools/../crates/words/out/words" "one  word" "" "*" >"$room/expected"
  cmp -s "$room/expected" "$room/emulated" || wrong "$1: the emulator's words: $(tr '\n' '|' <"$room/emulated")"
  rm -f "$room/emulated"
}

kit=$room/kit
QEMU_STRACE=1 QEMU_CPU=max LD_PRELOAD='' run aarch64 words "one  word" "" "*"
is "emulated" 0 "[one  word][][*]" ""
emulated "emulated, by RATTLE_HOME" "$room/kit"
[ ! -s "$room/settings" ] || wrong "the emulator sees $(tr '\n' ' ' <"$room/settings")"
unset kit

# rt's own place, through two links, the second relative to its own folder
ln -s ../kit/bin/rt "$room/links/real"
ln -s "$room/links/real" "$room/tools/rt"
run aarch64 words "one  word" "" "*"
is "emulated, by rt's place" 0 "[one  word][][*]" ""
emulated "emulated, by rt's place" "$room/links/../kit/bin/.."
rm "$room/tools/rt"

run aarch64 words
refused "no kit" "no Rattle kit"
kit=$room
run aarch64 words
refused "no emulator" "no emulator"
kit=$room/kit
run riscv64 words
refused "a processor that the kit does not know" "riscv64"
run aarch64 unbuilt
refused "not built" "crates/unbuilt/out/unbuilt is not built"
run aarch64 ''
refused "no name" "not built"
run aarch64
refused "no word" "usage"
[ ! -e "$room/emulated" ] || wrong "the emulator was called where nothing can be started"
unset kit

# directly, with no kit at all
run x86_64 words "one  word" "" "*"
is "direct" 0 "[one  word][][*]" ""
[ ! -e "$room/emulated" ] || wrong "direct: the emulator was called"
run x86_64 unbuilt
refused "direct, not built" "crates/unbuilt/out/unbuilt is not built"

kit=$room/kit
for machine in x86_64 aarch64; do
  run $machine teller
  is "what is said, $machine" 1 "out" $'teller: write: No space left on device\nand more'
  run $machine no_newline
  is "words with no new line, $machine" 1 "" "usage: no_newline"
  run $machine seven
  is "another status, $machine" 7 "" "seven: odd"
  run $machine closed
  is "ended by a closed pipe, $machine" 141 "" ""
  # every byte goes through, with nowhere to put a file
  head -c 300000 /dev/urandom >"$room/bytes"
  TMPDIR=$room/nowhere run $machine through <"$room/bytes"
  { [ "$status" -eq 0 ] && cmp -s "$room/printed" "$room/bytes" && [ ! -s "$room/said" ]; } || wrong "bytes through the runner, $machine: status $status"
done

# A signal to the runner ends the program, and then the runner, at once: by itself the program would end after 20 seconds.
for signal in HUP INT TERM; do
  rm -f "$room/waits"
  # in an interactive shell's place: a background command of a script would have INT ignored from the start
  (trap - INT && PATH=$room/tools MACHINE=x86_64 exec "$room/repo/tools/run" waits) >/dev/null 2>&1 &
  runner=$!
  for _ in {1..100}; do [ ! -s "$room/waits" ] || break; sleep 0.05; done
  program=$(cat "$room/waits")
  began=$SECONDS
  kill -s "$signal" "$runner"
  wait "$runner"
  status=$?
  [ $((SECONDS - began)) -lt 10 ] || wrong "$signal: the program was not ended"
  [ "$status" -gt 128 ] || wrong "$signal: status $status"
  if kill -0 "$program" 2>/dev/null; then
    wrong "$signal: the program runs on"
    kill "$program"
  fi
done

[ "$bad" -eq 0 ] && echo "the runner takes its ways, and passes on arguments, bytes, words, status and signals"

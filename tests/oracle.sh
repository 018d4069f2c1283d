#!/usr/bin/env bash
# The Rust itself as judge (docs/ORACLE.md): its files compiled unchanged, against the plain reference of document 01 and against the proved programs.
# Needs cargo; without it the test is skipped (status 77), since the kit alone does not bring it.
set -eu
cd "$(dirname "$0")/../oracle"
command -v cargo >/dev/null 2>&1 || { echo "no cargo here"; exit 77; }
cargo test --release --offline --workspace
cargo build --release --offline
target/release/compare random --sessions 1000 --seed "${SEED:-11}"
target/release/compare short --length 4
target/release/compare topic --sessions 500 --seed "${SEED:-11}"

# A session is a process of its own. Where x86-64 is emulated each start costs about twenty times as much, so that every comparison below is made
# there too, on a quarter of the sessions.
share=1
if [ "$(uname -m)" != x86_64 ]; then
  share=4
  echo "x86-64 is emulated here: of each comparison with a program, one session in $share"
fi
some="--seed ${SEED:-11} --sessions"
session='--program "../tools/run session_main"'
full='--program ../tools/full_session'
topic='--program "../tools/run topic_main"'

# One comparison a line, the longest first, as many at a time as there are processors; what each printed comes whole.
# The proved session program: every line against the reference, and (judge) against the Rust itself on the common ground; full_session prints each
# info's writer and sequence number too. Then the same of the proved program over the topic cache.
# shellcheck disable=SC2016
xargs -P "$(nproc 2>/dev/null || echo 1)" -L 1 sh -c '
  status=0
  said=$(target/release/compare "$@" 2>&1) || status=1
  printf "%s\n" "compare $*" "$said"
  exit "$status"' sh <<END
judge-short --length 5 --every $((307 * share)) $session
judge $some $((300 / share)) $session
judge-full $some $((300 / share)) $full
topic $some $((500 / share)) $topic
topic-damage $some $((500 / share)) $topic
judge-topic $some $((500 / share)) $topic
random $some $((200 / share)) $session
short --length 5 --every $((503 * share)) $session
damage $some $((500 / share)) $session
pipe $session
corners $session
judge-corners $session
topic-pipe $topic
END

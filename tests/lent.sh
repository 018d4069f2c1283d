#!/usr/bin/env bash
# The seven edits of code that has the table lent, crates/*/lent-edits. With the older kit such an edit needed a derivation made again (tools/lent), so
# they stood apart and the gate ran three of them. Today `rt ci` refuses all of them with the other must-fail edits, under their names there
# (`mark_lost` is `mark_lost_in_code`, since an edit of a definition has that name); here is seen that each is there with the same text.
set -u
cd "$(dirname "$0")/.." || exit 1
. tests/room.bash

count=0
for edit in crates/*/lent-edits/*.edit; do
  crate=$(basename "$(dirname "$(dirname "$edit")")")
  name=$(basename "$edit" .edit)
  [ "$crate/$name" != datasample_access/mark_lost ] || name=mark_lost_in_code
  count=$((count + 1))
  cmp -s "$edit" "crates/$crate/must-fail/$name.edit" || wrong "crates/$crate/must-fail/$name.edit is not there, or has another text than $edit"
done
echo "$count edits of lent code, $bad wrong"
[ "$count" -eq 7 ] && [ "$bad" -eq 0 ]

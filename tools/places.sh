#!/usr/bin/env bash
# The places in crates/*/src that docs/DESIGN-PASS.md counts: forms of the older language, by point. Prints FILE:LINE: TEXT for each, and a count behind each
# kind. tools/places.sh [FOLDER ..]: of these checkouts; else of this one. What it looks for by name was first found by reading, so it finds what was
# there and not what is new.
set -u
export LC_ALL=C

# show POINT WHAT PATTERN: the lines of the sources that match, comments left out
show() {
  local lines
  lines=$(grep -nE -- "$3" crates/*/src/*.rt | grep -vE '^[^:]*:[0-9]+: *//')
  [ -z "$lines" ] || printf '%s\n' "$lines"
  echo "== point $1, $2: $(printf '%s' "$lines" | grep -c .)"
}

places() {
  cd "$1" || exit 1
  show 1 'own enums for an option or a result' \
    'enum (BodyMade|Stepped|Last|Issued|Next|Within|Chosen|FirstBad|Evicted|Added|Reply|Listed|Answer|Maybe|Limited|Created|Update|Found|Op) '
  show 1 'flags with a value beside them' '^ *(pub )?(ready|failed|go|cut|known|full|read): bool,'
  show 1 'numbers for a refusal' 'Refused\((n|u64|[0-9]+)\)|refusal: u64|fn (refusal|no_writers|ten_unless)\(.*-> u64|(declined|refused|not_set_up)\([a-z_]+, [0-9]+\)'
  show 1 'numbers for none' '^ *(return )?256;?$|: 256,|newest: Cache::SLOTS,|Cache::SLOTS <= slot'
  show 3 'loops that count by hand' "^ *('[a-z]+: )?while "
  show 4 'equality, order, conversion and printing by hand' \
    '\) as u(8|32)$|% (256|4294967296|4_294_967_296)\b|fn (is_earlier|same|of_bit|body_of|state_of|sample_state_of|view_state_of|view_of|word_of_rank|rank_of_word|signed|negative|size|number|half_of|with_half|low_half|count_of|decimal|hex_digit|high_digit|low_digit|is_full|samples_told|wide|less|larger|smaller|at_most|clamp|left|rows_held|behind_last|raise|deeper|marked|zero|empty|no_info|nothing|is_ok|reply_of|evicted|add_reply|choose_reply|list_reply|next_reply|misplaced|is_set_up|one_below|one_in_range|in_bounds|depth_of|grown)\('
  show 5 'one requires in three or more functions' 'requires \{ (\(depth ≤ 256\) × \(row < 32\)|i < length t\.old|at \+ 27 ≤ length out\.(old|now)|at \+ 22 ≤ length buf\.old) \}'
  show 5 'a header and its words as two parameters' '(h|s|head): (index::)?(Cache|Session),( ws: |$)'
  show 6 'a buffer with a length beside it' '(words|ws): &(mut )?\[u64[^]]*\], (from: usize, )?held: usize|slots: &\[u64; 256\],( n: usize|$)|(buf|order|pairs): &(mut )?\[u64\], n: usize|(line|text|buf): &(mut )?\[u8\], (at|size): usize'
  show 7 'a switch on which step to run' 'take: bool'
}

if [ $# -eq 0 ]; then set -- "$(dirname "$0")/.."; fi
for folder in "$@"; do (places "$folder"); done

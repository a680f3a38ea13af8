# Sourced by run: cases that are too long, or too many alike, to be stored. What is wanted stands beside each text, worked out by hand.

# frame BYTE..: the line of a frame, its sum byte worked out
frame() {
  local byte sum=0
  for byte; do sum=$((sum + byte)); done
  printf '%02x' "$@" $(((256 - sum % 256) % 256))
  echo
}

a_head() { frame 1 "$1" $(($2 / 256)) $(($2 % 256)); }
a_link() { frame 2 "$1" "$2" $(($3 / 256)) $(($3 % 256)); }
a_label() { frame 4 "$1" "$2"; }
a_note() { frame 5 97 32 110 111 116 101 44 32 49 54 32 98 121 116 101 115; }
a_close() { frame 6 $(($1 / 256)) $(($1 % 256)); }
a_refusal() { frame 7 "$1" $(($2 / 256)) $(($2 % 256)); }

# a_cut PILE WEIGHT BONE: a cut that moves one bone
a_cut() {
  local side=(0 0 0 0 0 0 0 0 0 0 0 0 0 0 0 0)
  side[$3 / 8]=$((1 << ($3 % 8)))
  frame 3 "$1" $(($2 >> 24)) $(($2 >> 16 & 255)) $(($2 >> 8 & 255)) $(($2 & 255)) "${side[@]}"
}

# repeat COUNT LINE: a line many times
repeat() { awk -v count="$1" -v line="$2" 'BEGIN { for (i = 0; i < count; i++) print line }'; }

# bytes COUNT BYTE: one byte many times
bytes() { head -c "$1" /dev/zero | tr '\0' "$2"; }

# made NAME TEXT WANTED [THINNED]: holds the program to what the two commands print; THINNED is what thin prints, where bones prints something else
made() {
  $2 >"$room/text"
  $(of_this "$3" "${4:-}") >"$room/wanted"
  hold "$1" "$room/text" "$room/wanted"
}

# made_of LENGTH NAME TEXT WANTED [THINNED]: the same, and the text has that many bytes
made_of() {
  $3 >"$room/text"
  [ "$(wc -c <"$room/text")" -eq "$1" ] || fail "$2" "the text is not of $1 bytes"
  made "${@:2}"
}

# --- every kind that is none: one line among good ones

of_kind() { a_head 1 1; frame "$@"; a_close 2; }

kinds() {
  local kind length
  for kind in 0 {8..255}; do made "kind $kind" "of_kind $kind 0 0 0" 'a_refusal 16 1'; done
  for kind in 0 8; do
    for length in 0 1 2 4 16 21; do
      made "kind $kind, $length bytes" "of_kind $kind $(repeat "$length" 0 | tr '\n' ' ')" 'a_refusal 16 1'
    done
  done
}

# --- the longest texts: 11 bytes a head, 13 a link, 37 a note, 47 a cut, 9 a close

# Bones 0 and 1 keep together at 2, bone 2 hangs by 1.
longest() { a_head 3 2; a_link 0 1 2; a_link 2 1 1; repeat 1770 "$(a_note)"; a_close "${1:-1773}"; }
longest_result() { a_head 3 2; a_cut 0 1 2; a_label 0 0; a_label 1 0; a_label 2 2; a_close 5; }
longest_thinned() { a_head 3 2; a_link 0 1 2; a_close 2; }
one_more() { a_head 3 2; repeat 7 "$(a_link 0 1 2)"; a_cut 0 0 2; repeat 1767 "$(a_note)"; a_close 1776; }
bad_at_1000() { a_head 3 2; a_link 0 1 2; a_link 2 1 1; repeat 997 "$(a_note)"; echo "$1"; repeat 772 "$(a_note)"; a_close 1773; }

lengths() {
  made_of 65536 'longest text' longest longest_result longest_thinned
  made_of 65536 'longest text, wrong count' 'longest 1772' 'a_refusal 19 1773'
  made_of 65537 'one byte too many' one_more 'a_refusal 15 0'
  made_of 65536 'all one line, no line feed' 'bytes 65536 0' 'a_refusal 16 0'
  made_of 65537 'one byte too many, all one line' 'bytes 65537 0' 'a_refusal 15 0'
  made_of 65536 'line feeds alone' 'bytes 65536 \n' 'a_refusal 16 0'
  made_of 65537 'line feeds alone, one too many' 'bytes 65537 \n' 'a_refusal 15 0'
  made_of 200000 'far too long' 'bytes 200000 0' 'a_refusal 15 0'
  made 'line 1000 not well formed' "bad_at_1000 $(a_note | tr a-f A-F)" 'a_refusal 16 1000'
  made 'line 1000 wrong sum' "bad_at_1000 $(a_note | sed 's/..$/00/')" 'a_refusal 17 1000'
  made 'line 1000 out of order' "bad_at_1000 $(a_label 0 0)" 'a_refusal 18 1000'
}

# --- counts over one byte

notes() { a_head 1 1; repeat 300 "$(a_note)"; [ "$1" -eq 0 ] || a_close "$1"; }
one_bone() { a_head 1 1; a_label 0 0; a_close 2; }
# no_links N K: a text of a head and a close
no_links() { a_head "$1" "$2"; a_close 1; }

counts() {
  made '300 notes' 'notes 301' one_bone 'no_links 1 1'
  made '300 notes, low byte of the count alone' 'notes 45' 'a_refusal 19 301'
  made '300 notes, no close' 'notes 0' 'a_refusal 18 301'
}

# --- 4,096 links and one more

# pairs COUNT TALLY N K [LINE..]: many links of bones 0 and 1, and further lines
pairs() {
  a_head "$3" "$4"
  repeat "$1" "$(a_link 0 1 "$2")"
  [ $# -lt 5 ] || printf '%s\n' "${@:5}"
  a_close $(($# - 3 + $1))
}
together() { a_head 2 "$1"; a_label 0 0; a_label 1 0; a_close 3; }
apart() { a_head 2 "$1"; a_cut 0 "$2" 1; a_label 0 0; a_label 1 1; a_close 4; }

# Every bone linked with the 32 next ones, round; each link alone keeps its ends together.
round() {
  local a step
  a_head 128 65535
  for a in {0..127}; do
    for step in {1..32}; do a_link "$a" $(((a + step) % 128)) 65535; done
  done
  a_close 4097
}
all_one() {
  local bone
  a_head 128 65535
  for bone in {0..127}; do a_label "$bone" 0; done
  a_close 129
}

many_links() {
  local heaviest=$((4096 * 65535))
  made '4096 links' 'pairs 4096 1 2 4096' 'together 4096' 'pairs 4096 1 2 4096'
  made '4096 links, k one more' 'pairs 4096 1 2 4097' 'apart 4097 4096' 'no_links 2 4097'
  made '4096 links of 65535' 'pairs 4096 65535 2 65535' 'together 65535' 'pairs 4096 65535 2 65535'
  made '4096 links of 65535, cut as they weigh' "pairs 4096 65535 2 65535 $(a_cut 0 $heaviest 1)" 'a_refusal 13 0' 'pairs 4096 65535 2 65535'
  made '4096 links of 65535, cut without the high byte' "pairs 4096 65535 2 65535 $(a_cut 0 $((heaviest % 16777216)) 1)" 'a_refusal 12 0' \
    'pairs 4096 65535 2 65535'
  made '4096 links of 65535 among 128 bones' round all_one round
  made '4095 links and a bad end' "pairs 4095 1 2 1 $(a_link 0 2 1)" 'a_refusal 4 4095'
  made '4095 links and equal ends' "pairs 4095 1 2 1 $(a_link 1 1 1)" 'a_refusal 5 4095'
  made '4095 links and a tally of nought' "pairs 4095 1 2 1 $(a_link 0 1 0)" 'a_refusal 6 4095'
  made '4097 links' 'pairs 4097 1 2 1' 'a_refusal 3 0'
  made '4097 links, a bad end among them' "pairs 4096 1 2 1 $(a_link 2 2 0)" 'a_refusal 3 0'
  made '4097 links before n and k' 'pairs 4097 1 0 0' 'a_refusal 3 0'
}

# --- 127 cuts and one more: 128 bones without links, bone after bone taken from pile 0

# singles COUNT [LINE]: the cuts of bones 127, 126, .., and a further line
singles() {
  local bone
  for ((bone = 127; bone > 127 - $1; bone--)); do a_cut 0 0 "$bone"; done
  [ $# -lt 2 ] || echo "$2"
}
heap() { a_head "$1" 1; singles "${@:2}"; a_close $(($# - 1 + $2)); }
heap_result() {
  local bone
  a_head 128 1
  singles 127
  for bone in {0..127}; do a_label "$bone" "$bone"; done
  a_close 256
}
# A path of bones 0 to 126; bone 127 by itself.
path() {
  local bone
  a_head 128 1
  for bone in {0..125}; do a_link "$bone" $((bone + 1)) 1; done
  a_close 127
}
path_result() {
  local bone
  a_head 128 1
  a_cut 0 0 127
  for bone in {0..126}; do a_label "$bone" 0; done
  a_label 127 127
  a_close 130
}

many_cuts() {
  made '127 cuts' 'heap 128 127' heap_result 'no_links 128 1'
  made '126 cuts, one left' 'heap 128 126' heap_result 'no_links 128 1'
  made '126 cuts and a wrong weight' "heap 128 126 $(a_cut 0 1 1)" 'a_refusal 12 126' 'no_links 128 1'
  made '126 cuts and a pile that does not stand' "heap 128 126 $(a_cut 1 0 1)" 'a_refusal 10 126' 'no_links 128 1'
  made '126 cuts and a bone outside the pile' "heap 128 126 $(a_cut 0 0 2)" 'a_refusal 11 126' 'no_links 128 1'
  made '127 cuts and one more' "heap 128 127 $(a_cut 0 0 1)" 'a_refusal 9 0'
  made '128 cuts before n' "heap 0 127 $(a_cut 0 0 1)" 'a_refusal 9 0'
  made '127 cuts of 127 bones' 'heap 127 127' 'a_refusal 9 0' 'no_links 127 1'
  made '128 cuts after 4097 links' "pairs 4097 1 2 1 $(repeat 128 "$(a_cut 0 0 1)" | tr '\n' ' ')" 'a_refusal 3 0'
  made 'bone 127 by itself' path path_result path
}

made_cases() {
  kinds
  lengths
  counts
  many_links
  many_cuts
}

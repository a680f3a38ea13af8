# Sourced at the root by ./bones, ./thin and ./libbones, by the gate and by compare/: how a program is proved, built and started, and the archive for C built.
. tests/toolchain.sh

# below NAME: the crates of crates.txt that a crate is made of, each behind those that it names, as rt proves them; it comes last itself
below() {
  awk -F '[: ]+' -v name="$1" '!/^#/ { for (i = 2; i <= NF; i++) names[$1] = names[$1] " " $i; known[$1] = 1 }
    function visit(one, i, count, parts) {
      if (!(one in known) || one in seen) return
      seen[one] = 1
      count = split(names[one], parts, " ")
      for (i = 1; i <= count; i++) visit(parts[i])
      print one
    }
    END { visit(name) }' crates.txt
}

# is_current FILE NAME: whether the file is there, and nothing that the crate is made of has changed since. What counts of a source is when it was put where it
# is, whatever time it bears.
is_current() {
  local from=(crates.txt "$kit/KIT-ID") name part
  [ -e "$1" ] || return 1
  for name in $(below "$2"); do
    for part in "crates/$name"/{src,specs,proofs}; do [ ! -d "$part" ] || from+=("$part"); done
  done
  [ -z "$(find "${from[@]}" -cnewer "$1" -print -quit)" ]
}

# progress NAME: of what rt says, a line for each crate that it has proved anew, with its place among those that NAME is made of; nothing where all of them
# were proved before
progress() {
  local all line crate=
  all=$(below "$1")
  while read -r line; do
    case $line in
      'rt: chose --jobs '*' for '*) crate=${line##* } ;;
      'logic=proved '*) echo "$1: proved $(grep -nx "$crate" <<<"$all" | cut -d : -f 1) of $(wc -l <<<"$all"): $crate" ;;
    esac
  done
}

# said_by VERB NAME: what rt says, and not what the program prints that `rt run` starts
said_by() {
  cd "crates/$2"
  if [ "$1" = run ]; then rt run </dev/null 2>&1 >/dev/null; else rt "$1" </dev/null 2>&1; fi
}

# built NAME FILE VERB: the crate proved, and built by `rt VERB`. Standard error shows how far that is. The file target/NAME.began bears the time when it began:
# what changes later is not in what was built.
built() {
  local log=target/$1.log
  [ -e "$2" ] || echo "$1: proving and building first; that takes some minutes" >&2
  mkdir -p target
  touch "target/$1.began"
  if ! (set -o pipefail; said_by "$3" "$1" | tee "$log" | progress "$1" >&2); then
    cat "$log" >&2
    exit 1
  fi
}

# program NAME: the program crates/NAME/out/NAME, proved and built where it is missing or out of date
program() {
  local file=crates/$1/out/$1
  is_current "$file" "$1" || { built "$1" "$file" run && touch -r "target/$1.began" "$file"; }
}

# archive: the archive for C, lib/libbones.a, the same
archive() {
  is_current lib/libbones.a calls || { built calls lib/libbones.a lib && archive_is crates/calls/out/libcalls.a; }
}

# archive_is FILE: the archive for C, beside include/, is this one, whole at once
archive_is() {
  mkdir -p lib
  cp "$1" lib/libbones.new
  touch -r target/calls.began lib/libbones.new
  mv lib/libbones.new lib/libbones.a
}

# start NAME: starts the program; standard output is the program's alone
start() {
  program "$1"
  exec "${starter[@]}" "crates/$1/out/$1"
}

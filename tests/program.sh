#!/usr/bin/env bash
# The built program at its edge to the system, which no contract reaches: statuses, standard error, files and pipes that fail.
# usage: tests/program.sh [PROGRAM]. Each difference is told, and then the status is 1.
set -u
here=$(cd "$(dirname "${BASH_SOURCE[0]}")/.." && pwd)
tinker=$(realpath "${1:-$here/crates/tinker/out/tinker}")
folder=$(mktemp -d)
trap 'rm -rf "$folder"' EXIT
cd "$folder" || exit 1

passed=0
failed=0

# compare NAME: what the files out, err and status hold, with what out.want, err.want and status.want do.
compare() {
  local part
  for part in status out err; do
    if ! cmp -s "$part" "$part.want"; then
      failed=$((failed + 1))
      printf '%s: %s\nwanted: %s\nfound:  %s\n' "$1" "$part" "$(cat "$part.want")" "$(cat "$part")"
      return
    fi
  done
  passed=$((passed + 1))
}

# ends NAME STATUS OUT ERR COMMAND..: a command ends so. OUT and ERR are lines, or empty.
ends() {
  local name=$1
  printf '%s\n' "$2" > status.want
  printf '%s' "${3:+$3$'\n'}" > out.want
  printf '%s' "${4:+$4$'\n'}" > err.want
  shift 4
  timeout 20 "$@" > out 2> err < /dev/null
  printf '%s\n' $? > status
  compare "$name"
}

# fault WHY: the two lines of a fault.
fault() { printf 'tinker: host fault\n%s' "$1"; }

accepted() { printf 'accepted %s pages 1 blocks 1 words 3' "$1"; }

# sh -c with the program as $0.
shell() { ends "$1" "$2" "$3" "$4" bash -c "$5" "$tinker"; }

cp "$here/crates/tinker/data/s1.tnk" s1.tnk
: > empty
truncate -s 4194304 longest
truncate -s 4194305 longer
mkdir folder
mkfifo fifo

report='context 0
end halted 0
blocks 1
output 1
41
cycles 0 3
pages loaded 1 rescheduled 0 restored 0 evicted 0'
moved=${report/cycles 0 3/cycles 0 2}

# Each status.
ends 'a run' 0 "$report" '' "$tinker" run s1.tnk own -
ends 'a run on another generation' 0 "${moved/rescheduled 0/rescheduled 1}" '' "$tinker" run frames=1 saved=0 s1.tnk t2 -
ends 'the version' 0 'tinker 0.1' '' "$tinker" --version
ends 'a refusal' 1 'refused empty F1 Magic' '' "$tinker" check empty
ends 'no words' 2 'usage: see the manual' '' "$tinker"
ends 'words without a form' 2 'usage: see the manual' '' "$tinker" check s1.tnk s1.tnk
ends 'a missing file' 3 '' "$(fault 'reading nothere: No such file or directory (os error 2)')" "$tinker" check nothere
shell 'no memory' 4 '' 'tinker: out of memory' 'ulimit -v 5000; exec "$0" check longest'

# A file that is kept: whole, in place of an old one, and read again.
echo old > kept
ends 'a kept file' 0 'wrote kept 4141' '' "$tinker" resched s1.tnk t2 kept
ends 'its size' 0 '4141 kept' '' wc -c kept
ends 'its run' 0 "$moved" '' "$tinker" run kept own -
ends 'a chain back' 0 'wrote kept 4141' '' "$tinker" resched kept t1 kept
ends 'the run behind it' 0 "$moved" '' "$tinker" run kept own -
echo another > kept.0.part
ends 'a file kept beside another one' 0 'wrote kept 4141' '' "$tinker" resched s1.tnk t2 kept
ends 'the other one' 0 'another' '' cat kept.0.part
ends 'what is left beside it' 0 './kept.0.part' '' find . -name 'kept.*'
ln -s kept linked
ends 'a file kept through a link' 0 'wrote linked 4141' '' "$tinker" resched s1.tnk t1 linked
ends 'the link' 0 'kept' '' readlink linked
ends 'what is behind it' 0 '' '' cmp s1.tnk kept
shell 'a file kept on standard output' 0 '4164' '' '"$0" resched s1.tnk t2 /dev/stdout | wc -c'
ends 'a file kept in no folder' 3 '' "$(fault 'writing nowhere/x: No such file or directory (os error 2)')" "$tinker" resched s1.tnk t2 nowhere/x

# What isn't a plain file.
ends 'a folder' 3 '' "$(fault 'reading folder: Is a directory (os error 21)')" "$tinker" check folder
ends 'a file in no folder' 3 '' "$(fault 'reading empty/x: Not a directory (os error 20)')" "$tinker" check empty/x
shell 'a pipe' 0 "$(accepted /dev/stdin)" '' 'cat s1.tnk | "$0" check /dev/stdin'
shell 'a named pipe' 0 "$(accepted fifo)" '' '(sleep 0.2; cat s1.tnk > fifo) & "$0" check fifo'
shell 'a slow pipe' 0 "$(accepted /dev/stdin)" '' '(head -c 50 s1.tnk; sleep 0.2; tail -c +51 s1.tnk) | "$0" check /dev/stdin'
ends 'a closed input' 1 'refused /dev/stdin F1 Magic' '' "$tinker" check /dev/stdin

# Files at the limit and above it, also without an end.
ends 'the longest file' 1 'refused longest F1 Magic' '' "$tinker" check longest
ends 'a file above the limit' 1 'refused longer TooLong 4194304' '' "$tinker" check longer
ends 'a file without an end' 1 'refused /dev/zero TooLong 4194304' '' "$tinker" check /dev/zero

# Standard output that takes nothing.
shell 'a full disk' 3 '' "$(fault 'writing standard output: No space left on device (os error 28)')" 'exec "$0" check s1.tnk > /dev/full'
shell 'a closed output' 3 '' "$(fault 'writing standard output: Bad file descriptor (os error 9)')" 'exec "$0" check s1.tnk >&-'
shell 'a closed pipe' 3 '' "$(fault 'writing standard output: Broken pipe (os error 32)')" \
  '{ sleep 0.2; "$0" check s1.tnk; echo $? > ended; } | true; exit "$(cat ended)"'
shell 'a closed standard error' 3 '' '' 'exec "$0" check nothere 2>&-'

# Words that aren't text, and very long ones.
ends 'a word that is not UTF-8' 2 '' 'tinker: a word is not UTF-8' "$tinker" check $'\xff'
shell "the program's own name" 0 "$(accepted s1.tnk)" '' 'exec -a $'\''\xff'\'' "$0" check s1.tnk'
long=$(printf '%100000s' | tr ' ' x)
ends 'a long word' 3 '' "$(fault "reading $long: File name too long (os error 36)")" "$tinker" check "$long"
ends 'many words' 2 'usage: see the manual' '' "$tinker" check $(seq 5000)

printf '%d passed, %d failed\n' "$passed" "$failed"
[ "$failed" -eq 0 ]

# The words: what is told, what is refused as words, and the status of each.
cp "$(unbroken 8)" q

for word in help --help; do
  answers 0 . "$word"
  check "$word: the usage on standard output" has_line "$out" '^ *mastdock seal REPORT PROOF DEPTH'
  check "$word: nothing on standard error" is_silent "$err"
done
answers 0 '^mastdock 0\.9 \(edition 2\)$' --version
for word in seal verify chain info help; do
  answers 0 . "$word" --help
  check "$word --help: the usage on standard output" has_line "$out" "mastdock $word"
done

run
check "no word: status 2" has_status 2
check "no word: the usage on standard error" has_line "$err" 'mastdock seal REPORT PROOF DEPTH'
run frobnicate report.txt p 8
check "unknown word: status 2" has_status 2
check "unknown word: named in the message" has_line "$err" '^mastdock: .*frobnicate'

refuses 2 . seal
refuses 2 . seal report.txt p
refuses 2 . seal report.txt p 8 150 8 1
refuses 2 . verify report.txt
refuses 2 . verify report.txt q 8
refuses 2 . verify report.txt q 8 150 1
refuses 2 . chain report.txt
refuses 2 . chain report.txt q 8
refuses 2 . info
refuses 2 . info q q

# Numbers: digits alone, in their range.
for number in 007 08 ' 8' +8 '8 ' -8 0 41 8x 0x8 8.0 '' 18446744073709551624; do
  refuses 2 DEPTH seal report.txt p "$number"
  refuses 2 DEPTH verify report.txt q "$number" 150
  refuses 2 DEPTH verify report.txt q --at-least "$number" 150
done
for number in 0 201 0150 +150 ' 150'; do
  refuses 2 CHALLENGES seal report.txt p 8 "$number"
  refuses 2 CHALLENGES verify report.txt q 8 "$number"
  refuses 2 CHALLENGES verify report.txt q --at-least 8 "$number"
done
for number in 9 15 08 -1; do refuses 2 MEMORY seal report.txt p 8 150 "$number"; done
for number in 3601 00 +5 x ''; do
  refuses 2 . seal report.txt p 8 --every "$number"
  refuses 2 . seal --every "$number" report.txt p 8
done

# Options: where they may stand, and that no other is known.
refuses 2 . seal report.txt p 8 --every
refuses 2 . seal --every 5
refuses 2 . seal report.txt p 8 --frob 5
refuses 2 . verify report.txt q --at-least 8
refuses 2 . verify report.txt q 8 150 --at-least 8 150
refuses 2 . verify report.txt q --every 5
refuses 2 . chain report.txt q --at-least 8 150
check "nothing was made of refused words" is_same "$(names)" './other.txt ./q ./report.txt '

# Sealed; blocks by README's figures: 4 × (blocks + 2) = (8 + 13) × 2^8 of the tree, at level 0 of each opening 4 × (blocks + 4).
seals() { # BLOCKS LABELS WORDS...
  local blocks=$1 labels=$2
  shift 2
  answers 0 "^hashes $labels$" seal "$@"
  check "seal $*: the line before it is 'blocks $blocks'" is_same "$(tail -n 2 "$out" | head -n 1)" "blocks $blocks"
  check "seal $*: the same proof" cmp -s p q
  rm -f p
}
seals 1342 511 --every 5 report.txt p 8
seals 1342 511 report.txt p 8 --every 5
seals 1342 511 report.txt p 8 150 --every 0
seals 1342 511 --every 3600 report.txt p 8 150 8
seals 202342 77011 report.txt p 8 150 0

# Files that are not there, are no files, or may not be had.
refuses 2 'no such' seal none.txt p 8
refuses 2 'no such' seal report.txt none/p 8
refuses 2 folder seal . p 8
refuses 2 'there already' seal report.txt q 8
refuses 2 . seal report.txt . 8
refuses 2 'no folder' seal report.txt q/p 8
refuses 2 . seal '' p 8
refuses 2 . seal report.txt '' 8
refuses 2 'too long' seal report.txt "$(printf '%5000s' x)" 8
for word in verify chain; do
  refuses 2 'no such' "$word" none.txt q
  refuses 2 'no such' "$word" report.txt none
  refuses 2 folder "$word" report.txt .
done
refuses 2 'no such' info none
refuses 2 folder info .
check "nothing was made of files that cannot be had" is_same "$(names)" './other.txt ./q ./report.txt '

if [ "$(id -u)" = 0 ] && command -v setpriv >/dev/null; then
  chmod 600 report.txt
  status=0
  setpriv --reuid=65534 --regid=65534 --clear-groups "$mastdock" verify report.txt q >"$out" 2>"$err" || status=$?
  check "a report that may not be read: status 2" has_status 2
  check "a report that may not be read: told" has_line "$err" 'no permission'
  chmod 644 report.txt
fi

# Standard output that cannot be written: a status of its own.
for words in 'verify report.txt q' 'verify other.txt q' 'chain report.txt q' 'info q' help --version; do
  status=0
  # shellcheck disable=SC2086
  "$mastdock" $words >/dev/full 2>"$err" || status=$?
  check "$words into a full device: status 2" has_status 2
  check "$words into a full device: told" has_line "$err" '^mastdock: .*standard output'
done

# Control characters of a name do not reach the terminal.
for words in 'seal p 8' 'verify q' 'chain q'; do
  # shellcheck disable=SC2086
  refuses 2 'no\\x1b\[31msuch\\x0a' ${words%% *} $'no\e[31msuch\n' ${words#* }
done
refuses 2 'no\\x1bsuch' info $'no\esuch'
run $'fro\eb'
check "an unknown word with an escape: status 2" has_status 2
check "an unknown word with an escape: escaped" has_line "$err" 'fro\\x1bb'

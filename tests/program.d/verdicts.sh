# What `verify`, `chain` and `info` say of proofs that are right, of other work, damaged, or none.
accepted='^accepted depth 12 challenges 150 chain [0-9]+$'
cp "$(unbroken 12)" q
size=$(stat -c %s q)

answers 0 "$accepted" verify report.txt q
check "verify tells the edition first" is_same "$(head -n 1 "$out")" 'edition 2'
answers 0 "$accepted" verify report.txt q 12 150
answers 0 "$accepted" verify report.txt q --at-least 12 150
answers 0 "$accepted" verify --at-least 12 150 report.txt q
answers 0 "$accepted" verify report.txt q --at-least 1 1
answers 0 '^0 0$' chain report.txt q
answers 0 . info q
check "info tells the edition" has_line "$out" '^edition 2$'
check "info tells the depth" has_line "$out" 'depth.* 12\b'
check "info tells the challenges" has_line "$out" 'challenges.* 150\b'
check "info tells the statement" has_line "$out" "$(sha256sum <report.txt | cut -d ' ' -f 1)"

# The proofs and facts that everything else here is compared with are those of the model in tests/model.
if command -v python3 >/dev/null; then
  model='import sys, mastdock as m, scenarios as s
n = int(sys.argv[1])
tree = m.Tree(m.NEW_EDITION, m.sha(sys.stdin.buffer.read()), n)
sys.stdout.buffer.write(tree.file(150))
open(sys.argv[2], "w").write(s.facts(tree.statement, tree.root, n, 150, min(n, 14)))'
  for depth in 1 12 16 18; do
    PYTHONPATH=$top/tests/model python3 -B -c "$model" "$depth" "$work/model.facts" <report.txt >"$work/model"
    check "depth $depth: the proof is the model's" cmp -s "$work/model" "$(unbroken "$depth")"
    check "depth $depth: the facts are the model's" cmp -s "$work/model.facts" "$(unbroken "$depth").facts"
  done
else
  echo "   no python3 here: proofs and facts are not compared with the model's"
fi

# A proof of edition 1, as the program before edition 2 wrote it. With the first byte of another edition it is refused.
data=$top/crates/program_scenarios/data
answers 0 '^accepted depth 6 challenges 20 chain 62$' verify "$data/report" "$data/edition1.proof" 6 20
check "an old proof: verify tells its edition first" is_same "$(head -n 1 "$out")" 'edition 1'
answers 0 '^0 0$' chain "$data/report" "$data/edition1.proof"
for byte in 0 2 3; do
  # shellcheck disable=SC2059
  { printf "\\$byte" && tail -c +2 "$data/edition1.proof"; } >old
  answers 1 "^refused $([ "$byte" = 2 ] && echo '1[45]' || echo 12) " verify "$data/report" old
  check "an old proof with first byte $byte: no edition is told" is_same "$(grep -c '^edition' "$out")" 0
done
rm -f old

# Report and proof from pipes.
answers 0 "$accepted" verify - q <report.txt
answers 0 '^0 0$' chain - q <report.txt
answers 1 '^refused 9 0$' verify - q <other.txt
answers 0 "$accepted" verify - q 12 150 < <(cat report.txt)
answers 0 "$accepted" verify report.txt <(cat q) --at-least 12 150

# Another report, or other work than is wanted: the line before the last names what differs, and not what does not.
differs() { # NAMED UNNAMED WORDS...
  local named=$1 unnamed=$2
  shift 2
  answers 1 '^refused 9 0$' verify "$@"
  tail -n 2 "$out" | head -n 1 >"$work/line"
  check "verify $*: names $named" has_line "$work/line" "$named"
  check "verify $*: does not name $unnamed" is_same "$(grep -Ec -- "$unnamed" "$work/line")" 0
}
differs 'report' 'depth|challenges' other.txt q
differs 'report' 'depth|challenges' other.txt q 12 150
differs 'depth' 'report|challenges' report.txt q 13 150
differs 'depth' 'report|challenges' report.txt q 11 150
differs 'challenges' 'report|depth' report.txt q 12 149
differs 'depth' 'report|challenges' report.txt q --at-least 13 150
differs 'challenges' 'report|depth' report.txt q --at-least 12 151
differs 'depth' 'report|challenges' report.txt q --at-least 40 1
answers 1 '^refused 9 0$' chain other.txt q

# Damaged proofs, and files that are none.
refused() { # WHAT INFO_STATUS
  answers 1 '^refused [0-9]+ [0-9]+$' verify report.txt bad
  check "$1: verify says why" is_same "$(tail -n 2 "$out" | head -n 1 | grep -Ec '^(refused|depth|challenges) ')" 0
  answers 1 '^refused [0-9]+ [0-9]+$' chain report.txt bad
  run info bad
  check "$1: status $2 of info" has_status "$2"
}
: >bad && refused "an empty file" 1
cp report.txt bad && refused "a text" 1
head -c $((size - 1)) q >bad && refused "a proof cut by a byte" 1
{ cat q && echo; } >bad && refused "a proof with a byte more" 1
change() { # FILE PLACE: one byte becomes another
  local byte
  byte=$(od -An -tu1 -j "$2" -N 1 "$1")
  # shellcheck disable=SC2059
  printf "\\$(printf %o $((byte ^ 1)))" | dd of="$1" bs=1 seek="$2" conv=notrunc status=none
}
for _ in 1 2 3 4 5 6 7 8 9 10; do
  draw $((size - 4))
  cp q bad && change bad $((drawn + 4)) && refused "byte $((drawn + 4)) changed" 0
done
head -c 300000 /dev/zero >bad
refuses 2 'larger than any proof' verify report.txt bad
refuses 2 'larger than any proof' info bad
check "nothing was made" is_same "$(names)" './bad ./other.txt ./q ./report.txt '

# Checkpoints that are not the command's own: of another order, damaged, cut short, or foreign. Refused, and nothing is touched.

# Stops a run by KILL once its checkpoint is there; keeps what it left in the folder NAME.
keep_killed() { # NAME PAUSE WORDS...
  local name=$1 pause=$2 pid tries=0
  shift 2
  "$mastdock" "$@" >"$out" 2>"$err" &
  pid=$!
  until [ -s p.run ] || [ "$tries" = 500 ]; do
    sleep 0.01
    tries=$((tries + 1))
  done
  sleep "$pause"
  kill -KILL "$pid" 2>/dev/null || true
  wait "$pid" 2>/dev/null || true
  mkdir "../$name"
  mv p.* "../$name/" 2>/dev/null || true
  check "$name: a killed run left a checkpoint" is_there "../$name/p.run"
  rm -f p
}

# Puts what a killed run left here again.
put_back() { # NAME
  rm -f p p.*
  cp -p "../$1"/p.* .
}

# A command that must refuse the checkpoint that is there.
refuses_checkpoint() { # WHAT WORDS...
  local what=$1 before after sum
  shift
  before=$(names) sum=$(sum_of p.run)
  refuses 1 'p\.run' "$@"
  after=$(names)
  check "$what: the checkpoint is unchanged" is_same "$(sum_of p.run)" "$sum"
  check "$what: nothing is left that was not there: $after" is_same "$(LC_ALL=C comm -13 <(tr ' ' '\n' <<<"$before" | LC_ALL=C sort) <(tr ' ' '\n' <<<"$after" | LC_ALL=C sort))" ''
}

# One of edition 1, as the program before edition 2 left it, is gone on with in edition 1.
data=$top/crates/program_scenarios/data
cp "$data/edition1.run" p.run
answers 0 '^hashes 407$' seal "$data/report" p 6 20 3
check "edition 1: going on" has_line "$err" 'p\.run: going on from label 50 of 127$'
check "edition 1: the proof is of edition 1" cmp -s p "$data/edition1.proof"
check "edition 1: nothing but the proof is left: $(names)" is_alone
rm -f p

order=(seal --every 0 report.txt p 18 150 14)
keep_killed labels 0 "${order[@]}"

# Of another order; the right command still goes on from it.
put_back labels
refuses_checkpoint "another report" seal --every 0 other.txt p 18 150 14
refuses_checkpoint "another depth" seal --every 0 report.txt p 17 150 14
refuses_checkpoint "a greater depth" seal --every 0 report.txt p 30 150 14
refuses_checkpoint "another level" seal --every 0 report.txt p 18 150 13
refuses_checkpoint "other challenges" seal --every 0 report.txt p 18 149 14
run seal report.txt p 18
check "the order with its default numbers goes on" has_line "$err" 'p\.run: going on '
ends_right "after five refusals" 18
rm -f p

# A byte changed, at the ends and at random places; cut short; more bytes.
flip() { # PLACE
  local byte
  byte=$(od -An -tu1 -j "$1" -N 1 p.run)
  # shellcheck disable=SC2059
  printf "\\$(printf %o $((byte ^ (1 << RANDOM % 8))))" | dd of=p.run bs=1 seek="$1" conv=notrunc status=none
}
size=$(stat -c %s ../labels/p.run)
places=(0 1 2 $((size - 1)) $((size - 32)))
for _ in 1 2 3 4 5 6 7 8 9 10; do
  draw "$size"
  places+=("$drawn")
done
for place in "${places[@]}"; do
  put_back labels
  flip "$place"
  refuses_checkpoint "byte $place of $size changed" "${order[@]}"
done
draw "$size"
for left in 0 1 40 "$drawn" $((size / 2)) $((size - 1)); do
  put_back labels
  truncate -s "$left" p.run
  refuses_checkpoint "cut to $left bytes of $size" "${order[@]}"
done

# A foreign file under the name, alone and beside what a killed run left.
rm -f p p.*
cp other.txt p.run
refuses_checkpoint "a foreign file alone" "${order[@]}"
put_back labels
cp "$mastdock" p.run
refuses_checkpoint "a foreign file among left-overs" "${order[@]}"

# In the openings a damaged checkpoint is refused, or what is damaged is made anew; no wrong proof comes of it.
order=(seal --every 0 report.txt p 16 150 2)
rm -f p p.*
keep_killed openings 1 "${order[@]}"
size=$(stat -c %s ../openings/p.run)
for _ in 1 2 3 4 5 6; do
  put_back openings
  draw "$size"
  if [ $((drawn % 2)) = 0 ]; then flip "$drawn"; else truncate -s "$drawn" p.run; fi
  sum=$(sum_of p.run)
  run "${order[@]}"
  if [ "$status" = 0 ]; then
    ends_right "openings damaged at byte $drawn of $size" 16
  else
    check "openings damaged at byte $drawn of $size: status 1" has_status 1
    check "openings damaged at byte $drawn of $size: one line on the checkpoint" is_same "$(grep -c 'p\.run: ' "$err")" 1
    check "openings damaged at byte $drawn of $size: unchanged" is_same "$(sum_of p.run)" "$sum"
  fi
done
put_back openings
run "${order[@]}"
check "the undamaged one goes on with an opening" has_line "$err" 'p\.run: going on with opening [0-9]+ of 150$'
ends_right "the undamaged one" 16

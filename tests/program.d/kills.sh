# Seals killed at random moments by KILL and TERM in turn, each begun again by the same command until it ends: 50 kills in all, half of them
# in runs that mostly label, half in runs that mostly open (few levels in memory, so that each opening makes many labels anew).

kills=0 resumed=0 opening=0
openings_said='going on with opening ([0-9]+) of 150$'

# What a resumed run says: that it goes on, and in the openings with the very next one after those that the checkpoint's size tells.
check_resumed() { # DEPTH LEVEL SIZE: of the checkpoint that it found
  local said whole
  check "a resumed run says so" has_line "$err" \
    '^mastdock: p\.run: (going on (from label [0-9]+ of [0-9]+|with opening [0-9]+ of 150)|all openings are made)$'
  resumed=$((resumed + 1))
  said=$(sed -nE "s/.*$openings_said/\1/p" "$err")
  [ -n "$said" ] || return 0
  # docs/FORMAT.md: the head, the store, a finished run's record (six bytes of numbers at these depths) and the SHA-256
  whole=$((20 + 32 * (2 ** ($2 + 1) - 1) + 6 + 64 + 32))
  check "opening $said is the next after those in $3 bytes" test "$said" = "$(((($3 - whole) / (32 * ($1 + 1))) + 1))"
  check "opening $said is not before opening $opening" test "$said" -ge "$opening"
  opening=$said
}

# After a kill: the proof is not there, or it is whole. One that is whole ends the run; what the kill left beside it is removed.
check_killed() { # SIGNAL DEPTH
  kills=$((kills + 1))
  check "killed by $1: status of a killed program" test "$status" = $((128 + $(kill -l "$1")))
  if [ -e p ]; then
    check "killed by $1: a proof that has its name is whole" is_right "$2"
    rm -f p p.*
  fi
}

# One command, killed and begun again until it ends.
seal_under_kills() { # DEPTH LEVEL MICROSECONDS
  local depth=$1 order=(seal --every 0 report.txt p "$1" 150 "$2") found=0 signal
  opening=0
  while :; do
    signal=KILL
    [ $((kills % 2)) = 0 ] || signal=TERM
    draw "$3"
    run_killed "$signal" "$drawn" "${order[@]}"
    if [ "$found" != 0 ] && [ -s "$err" ]; then check_resumed "$depth" "$2" "$found"; fi
    if [ "$status" -lt 128 ]; then break; fi
    check_killed "$signal" "$depth"
    found=0
    [ ! -s p.run ] || found=$(stat -c %s p.run)
  done
  ends_right "after kills at depth $depth, level $2" "$depth"
  check "after kills at depth $depth, level $2: the facts of an unbroken run" cmp -s "$out" "$work/facts"
  rm -f p p.*
}

# Kills until there are so many.
kill_until() { # KILLS DEPTH LEVEL
  local began
  began=$(micros)
  run seal --every 0 report.txt p "$2" 150 "$3"
  cp "$out" "$work/facts"
  ends_right "an unbroken run at depth $2, level $3" "$2"
  rm -f p p.*
  began=$(($(micros) - began))
  echo "   depth $2, level $3: $((began / 1000)) ms unbroken"
  while [ "$kills" -lt "$1" ]; do seal_under_kills "$2" "$3" "$began"; done
}

kill_until 8 16 14
kill_until 16 17 14
kill_until 25 18 14
labelled=$resumed
kill_until 38 16 4
kill_until 50 16 6
check "runs were resumed in the labels ($labelled)" test "$labelled" -gt 0
check "runs were resumed in the openings" test "$((resumed - labelled))" -gt 0
echo "   $kills kills, $resumed runs resumed, $((resumed - labelled)) of them where openings take longest"

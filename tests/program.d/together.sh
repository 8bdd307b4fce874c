# Two runs on one name: one works, the other refuses. What a run that has ended left is taken over.
order=(seal --every 0 report.txt p 18 150 14)

# Starts the order in the background and waits until it holds the name.
start() {
  local tries=0
  "$mastdock" "${order[@]}" >"$work/first.out" 2>"$work/first.err" &
  pid=$!
  until [ -s p.lock ] || [ "$tries" = 500 ]; do
    sleep 0.01
    tries=$((tries + 1))
  done
}

# The other run refuses while the first is stopped for a moment, so that the order of events is certain.
for other in "${order[*]}" 'seal report.txt p 18' 'seal other.txt p 8'; do
  start
  kill -STOP "$pid" || true
  # shellcheck disable=SC2086
  refuses 1 . $other
  kill -CONT "$pid" || true
  status=0
  wait "$pid" || status=$?
  ends_right "the first of two runs, the other being '$other'" 18
  rm -f p p.*
done

# Both begun at the same moment, and three: exactly one seals, the others refuse.
for count in 2 2 2 3 3 3; do
  pids=() statuses=''
  for i in $(seq "$count"); do
    "$mastdock" "${order[@]}" >"$work/$i.out" 2>"$work/$i.err" &
    pids+=($!)
  done
  for pid in "${pids[@]}"; do
    status=0
    wait "$pid" || status=$?
    statuses="$statuses $status"
  done
  statuses=$(tr ' ' '\n' <<<"$statuses" | sort | tr -d '\n')
  check "$count runs at once: one seals, the others refuse: $statuses" is_same "$statuses" "$(printf '0%.0s%s' 1 "$(printf '1%.0s' $(seq 2 "$count"))")"
  status=0
  ends_right "$count runs at once" 18
  rm -f p p.*
done

# A killed run's left-overs, lock and all, are taken over; a run that waits stopped still holds the name after that.
start
kill -KILL "$pid" || true
wait "$pid" 2>/dev/null || true
check "a killed run leaves its lock" is_there p.lock
run "${order[@]}"
ends_right "left-overs of a killed run" 18
rm -f p p.*

# A lock that names a process which is not mastdock's run: this shell, under a start that is not its own.
start
kill -KILL "$pid" || true
wait "$pid" 2>/dev/null || true
if [ -e p.lock ]; then sed -i "s/^\( *\)$pid\b/\1$$/" p.lock; fi
run "${order[@]}"
ends_right "a lock whose process number was given to another program" 18

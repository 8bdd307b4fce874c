# A full disk: told in plain words, status 2, and once there is room the same command goes on. A small tmpfs where it can be mounted, else
# a limit on the size of a file.
mkdir -p "$small"
order=(seal --every 0 report.txt p 18 150 14)
full='^mastdock: p\.[a-z]+: .*(no room on the disk|too large)'
if mount -t tmpfs -o size=64k tmpfs "$small" 2>/dev/null; then
  cp report.txt other.txt "$small/"
  cd "$small"
  limit() { mount -o remount,size="$1"k "$small"; } # a disk of so many kilobytes
  limited() { run "$@"; }
else
  echo "   no tmpfs can be mounted here; trying a limit on the size of files instead"
  limit() { blocks=$1; }
  limited() {
    status=0
    (trap '' XFSZ && ulimit -f "$blocks" && exec timeout 300 "$mastdock" "$@") >"$out" 2>"$err" || status=$?
  }
fi

# No room for the proof: 79 kB and more at this depth.
limit 64
limited "${order[@]}"
check "no room for the proof: status 2" has_status 2
check "no room for the proof: told" has_line "$err" "$full"
check "no room for the proof: nothing on standard output" is_silent "$out"
check "no room for the proof: no proof" is_gone p
limit 8192
run "${order[@]}"
ends_right "once there is room" 18
rm -f p

# Room for the proof and no checkpoint, for one, for one and a half: what does not end well says so, and what was there is not lost.
for kilobytes in 128 512 1024 1280 1536 2048 2400; do
  limit "$kilobytes"
  limited "${order[@]}"
  if [ "$status" != 0 ]; then
    check "$kilobytes kB: status 2" has_status 2
    check "$kilobytes kB: told" has_line "$err" "$full"
    check "$kilobytes kB: no proof" is_gone p
    found=no
    [ ! -s p.run ] || found=yes
    limit 8192
    run "${order[@]}"
    [ "$found" = no ] || check "$kilobytes kB: goes on from the checkpoint" has_line "$err" 'p\.run: going on '
  fi
  # the labelling goes on without a checkpoint, and says so
  if [ "$status" = 0 ] && [ "$kilobytes" -lt 1100 ]; then check "$kilobytes kB: no room for a checkpoint is told" has_line "$err" "$full"; fi
  ends_right "$kilobytes kB, then room" 18
  echo "   $kilobytes kB: $([ -n "${found-}" ] && echo "full, checkpoint kept: $found" || echo enough)"
  found=''
  rm -f p p.*
done
cd "$work"

# Progress on standard error: lines in a file, one line rewritten on a terminal. The run takes some seconds, so that a forecast is made.
forecast='^depth 21: about ([0-9]+ (d|h|min) )?[0-9]+ (h|min|s) at [0-9]+ labels a second$'
labels='labels [0-9]+ of [0-9]+, [0-9]+ %'

run seal report.txt p 21
check "into a file: status 0" has_status 0
check "into a file: a forecast: $(grep '^depth' "$err" || echo none)" has_line "$err" "$forecast"
check "into a file: progress" has_line "$err" "^$labels"
check "into a file: a line a minute, so few" test "$(wc -l <"$err")" -le 8
check "into a file: no control characters" is_same "$(tr -d '\n' <"$err" | LC_ALL=C grep -c '[[:cntrl:]]')" 0
rm -f p

status=0
script -qec "'$mastdock' seal report.txt p 21" /dev/null >"$work/terminal" </dev/null || status=$?
check "on a terminal: status 0" has_status 0
check "on a terminal: the last fact" has_line <(tr -d '\r' <"$work/terminal") '^hashes [0-9]+$'
# A terminal's line feed is sent as \r\n; the other carriage returns rewrite a line.
sed 's/\r$//' "$work/terminal" >"$work/lines"
check "on a terminal: a line is rewritten" test "$(tr -cd '\r' <"$work/lines" | wc -c)" -ge 2
check "on a terminal: with speed and what is left" has_line <(tr '\r' '\n' <"$work/lines") "$labels, [0-9]+ a second, .* left"
check "on a terminal: few lines of progress" test "$(grep -c "$(printf 'labels [0-9]')" "$work/lines")" -le 4
check "on a terminal: a forecast" has_line <(tr '\r' '\n' <"$work/lines") 'depth 21: about '

# A level that makes more labels anew than the tree has: told before the work.
rm -f p
run seal report.txt p 12 150 2
check "a low level is told" has_line "$err" '^mastdock: memory level 2 makes 306900 labels anew for the openings, more than the 8191 of the tree$'
check "a low level: status 0" has_status 0

# Standard descriptors closed, in all eight combinations: no file is taken for one of them.
cp "$(unbroken 12)" q
for closed in '' 0 1 2 01 02 12 012; do
  : >"$out" && : >"$err"
  status=0
  (
    case $closed in *1*) exec >&- ;; *) exec >"$out" ;; esac
    case $closed in *0*) exec <&- ;; *) exec </dev/null ;; esac
    case $closed in *2*) exec 2>&- ;; *) exec 2>"$err" ;; esac
    exec "$mastdock" seal --every 0 report.txt p 12
  ) || status=$?
  wanted=0
  case $closed in *1*) wanted=2 ;; esac
  check "closed '$closed': status $wanted" has_status "$wanted"
  check "closed '$closed': the right proof" is_right 12
  check "closed '$closed': nothing beside it: $(names)" is_same "$(names)" './other.txt ./p ./q ./report.txt '
  check "closed '$closed': the report is unchanged" cmp -s report.txt "$top/examples/report.txt"
  case $closed in 1 | 01) check "closed '$closed': told, and that the proof stands" has_line "$err" 'standard output.*the proof stands' ;; esac

  status=0
  (
    case $closed in *1*) exec >&- ;; *) exec >"$out" ;; esac
    case $closed in *0*) exec <&- ;; *) exec </dev/null ;; esac
    case $closed in *2*) exec 2>&- ;; *) exec 2>"$err" ;; esac
    exec "$mastdock" verify report.txt q --at-least 12 150
  ) || status=$?
  check "closed '$closed': verify has status $wanted" has_status "$wanted"
  check "closed '$closed': the proof is unchanged" is_right 12
  rm -f p
done

# Standard input as the report, and closed: not sealed as if it were an empty report without a word.
status=0
"$mastdock" seal - p 8 <&- >"$out" 2>"$err" || status=$?
check "REPORT is a closed standard input: a line says so" has_line "$err" '^mastdock: '
rm -f p

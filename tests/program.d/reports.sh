# REPORT as standard input, empty, or one of the files that `seal` makes: none of them may be overwritten.
answers 0 '^hashes 131971$' seal - p 16 <report.txt
ends_right "seal - from a file" 16
check "seal - from a file: the facts of an unbroken run" cmp -s "$out" "$(unbroken 16).facts"
rm -f p
status=0
# shellcheck disable=SC2002
cat report.txt | "$mastdock" seal - p 16 >"$out" 2>"$err" || status=$?
ends_right "seal - from a pipe" 16
rm -f p

run seal /dev/null p 8
check "an empty report can be sealed" has_status 0
check "an empty report is told" has_line "$err" 'empty'
answers 0 '^accepted ' verify /dev/null p 8 150
rm -f p

# A report under the name of a file that `seal` writes, itself or behind a link: refused, and it stays as it was.
for end in part run new lock; do
  for way in name link hard; do
    cp "$top/examples/report.txt" "p.$end"
    case $way in
    name) report=p.$end ;;
    link) report=link && ln -s "p.$end" link ;;
    hard) report=link && ln "p.$end" link ;;
    esac
    before=$(names)
    refuses 2 . seal "$report" p 8
    check "REPORT is p.$end by $way: unchanged" cmp -s "$report" "$top/examples/report.txt"
    check "REPORT is p.$end by $way: nothing made" is_same "$(names)" "$before"
    rm -f p p.* link
  done
done
refuses 2 'there already' seal report.txt report.txt 8
check "REPORT is PROOF: unchanged" cmp -s report.txt "$top/examples/report.txt"

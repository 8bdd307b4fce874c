# ./install and ./uninstall, with PREFIX as a word and in the environment, and DESTDIR.
installed='./bin/mastdock ./include/mastdock.h ./lib/libmastdock.a ./share/man/man1/mastdock.1 '
files_in() { (cd "$1" && find . ! -type d | sort | tr '\n' ' '); }
status=0
"$top/install" "$PWD/prefix" >"$out" 2>"$err" || status=$?
check "./install: status 0" has_status 0
check "./install: four files" is_same "$(files_in prefix)" "$installed"
check "./install: says which" is_same "$(grep -c "^install: $PWD/prefix/" "$out")" 4
status=0
prefix/bin/mastdock --version >"$out" 2>"$err" || status=$?
check "the installed program: its version" has_line "$out" '^mastdock 0\.9 \(edition 2\)$'
check "the installed program: status 0" has_status 0
check "the manual page is there" grep -q '^\.TH MASTDOCK 1' prefix/share/man/man1/mastdock.1
if command -v groff >/dev/null; then
  check "the manual page has no warning" is_same "$(groff -man -Tutf8 -ww prefix/share/man/man1/mastdock.1 2>&1 >/dev/null)" ''
fi
if command -v cc >/dev/null; then
  cc -std=c11 -Iprefix/include "$top/examples/seal_and_check.c" -Lprefix/lib -lmastdock -o seal_and_check >"$out" 2>"$err" || true
  status=0
  ./seal_and_check >"$out" 2>"$err" || status=$?
  check "the C example links with the installed library and runs" has_status 0
  check "the C example prints what it should" cmp -s "$out" "$top/examples/seal_and_check.stdout"
else
  echo "   no cc here: the C example is not linked with the installed library"
fi

echo own >prefix/bin/own
"$top/uninstall" "$PWD/prefix" >"$out" 2>"$err"
check "./uninstall: says what it removed" is_same "$(grep -c "^uninstall: removed $PWD/prefix/" "$out")" 4
check "./uninstall: leaves what is not its own, and nothing else" is_same "$(files_in prefix)" './bin/own '

PREFIX=/usr DESTDIR=$PWD/root "$top/install" >"$out" 2>"$err"
check "PREFIX and DESTDIR of the environment" is_same "$(files_in root/usr)" "$installed"
PREFIX=/usr DESTDIR=$PWD/root "$top/uninstall" >"$out" 2>"$err"
check "./uninstall with both: leaves nothing" is_same "$(files_in root)" ''

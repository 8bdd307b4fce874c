# A fault of the kit's compiler that took a register in use where a large frame is made late (docs/DECISIONS.md): not in this program.
if command -v objdump >/dev/null && command -v python3 >/dev/null; then
  status=0
  "$top/tests/stack_probes" "$mastdock" >"$out" 2>"$err" || status=$?
  check "no register is lost where room on the stack is made: $(tail -n 1 "$out")" has_status 0
else
  echo "   objdump or python3 is not here; frames are not looked at"
fi

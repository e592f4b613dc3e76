#!/bin/sh
# The editor of tests/git/compare_stages.py: changes the file as the variable EDIT says, and logs what it was.
# As a hook of compare_stages_hook.sh.
{
  printf '<editor>\t%s\t\t\t\t\t\t%s\n' "$EDIT" "${1##*/}"
  sed 's/^/|/' "$1"
} >> "$HOOK_LOG"
case $EDIT in
keep) ;;
write) printf '%s' "$EDIT_TEXT" > "$1" ;;
append) printf '%s' "$EDIT_TEXT" >> "$1" ;;
prepend) { printf '%s\n' "$EDIT_TEXT" && cat "$1"; } > "$HOOK_LOG.edited" && cat "$HOOK_LOG.edited" > "$1" ;;
clear) : > "$1" ;;
comment) printf '# by the editor\n; by the editor\n' >> "$1" ;;
esac

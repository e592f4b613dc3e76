#!/bin/sh
# What the hooks of tests/git/compare_stages.py do: compare_stages_hook.sh ID ACTION [NAME..]
# Each writes a line into the log: its id, a digest of files that it finds, variables, and the names that it gets. The lines of a
# message follow, each after a bar. The digest is of files that each commit has: others may be in a working tree alone.
id=$1 action=$2
shift 2
case ${1-} in
*_EDITMSG | */MERGE_MSG) message=$1 ;;
*) message='' ;;
esac
editor=${GIT_EDITOR-none}
digest=$({
  cksum .pre-commit-config.yaml a.txt b.txt c.txt d/e.txt run.sh
  [ -z "$message" ] || cksum < "$message"
} | cksum)
entry=$(
  printf '<%s>\t%s' "$id" "$digest"
  printf '\t%s' "source=${PRE_COMMIT_COMMIT_MSG_SOURCE-none}" "commit=${PRE_COMMIT_COMMIT_OBJECT_NAME-none}" "pre-commit=${PRE_COMMIT-none}" \
    "editor=${editor##*/}" "author=${GIT_AUTHOR_NAME-none}"
  printf '\t%s' "$@"
  printf '\n'
  [ -z "$message" ] || sed 's/^/|/' "$message"
)
# At once, since hooks may run beside one another.
printf '%s\n' "$entry" >> "$HOOK_LOG"
told() { printf '<%s>\ttold\t\t\t\t\t\t%s\n' "$id" "$(printf '%s' "$1" | tr '\n\t' '  ')" >> "$HOOK_LOG"; }

case $action in
pass) ;;
fail) exit 1 ;;
# On files, of which a message may be one.
words) ! grep -n -e BAD -e REFUSED -- "$@" < /dev/null ;;
blanks) [ $# = 0 ] || sed -i 's/[ 	]*$//' -- "$@" ;;
change) echo changed >> a.txt ;;
new) echo new > new.txt ;;
# On a message alone.
short) [ -z "$message" ] || ! grep -n '.\{73\}' "$message" ;;
append) [ -z "$message" ] || echo "Seen-by: $id" >> "$message" ;;
subject) [ -z "$message" ] || sed -i '1s/^/[x] /' "$message" ;;
trailer) [ -z "$message" ] || git interpret-trailers --in-place --trailer "Checked: $id" "$message" ;;
uncomment) [ -z "$message" ] || sed -i '/^[#;]/d' "$message" ;;
clear) [ -z "$message" ] || : > "$message" ;;
strip) [ -z "$message" ] || { git stripspace < "$message" > "$HOOK_LOG.message" && cat "$HOOK_LOG.message" > "$message"; } ;;
replace) [ -z "$message" ] || { echo "replaced by $id" > "$HOOK_LOG.message" && cp "$HOOK_LOG.message" "$message"; } ;;
source) [ -z "$message" ] || [ -z "${PRE_COMMIT_COMMIT_MSG_SOURCE-}" ] || sed -i "1i From $PRE_COMMIT_COMMIT_MSG_SOURCE" "$message" ;;
amended)
  commit=${PRE_COMMIT_COMMIT_OBJECT_NAME-}
  [ -z "$message" ] || [ -z "$commit" ] || git log -1 --format='Was: %s' "$commit" >> "$message"
  ;;
branch) [ -z "$message" ] || echo "On $(git symbolic-ref --short HEAD)" >> "$message" ;;
changed)
  told "branch: $(git rev-parse --abbrev-ref HEAD) staged: $(git diff --cached --name-status) changed: $(git diff --name-status)"
  ;;
history) told "history: $(git log -3 --format='%H %s')" ;;
*) exit 99 ;;
esac

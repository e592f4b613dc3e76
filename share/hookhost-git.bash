# Completion of hookhost-git in bash. To use it, in ~/.bashrc:
#   source FOLDER/hookhost-git.bash

# Puts what can follow at the cursor into COMPREPLY.
_hookhost_git() {
  local word=${COMP_WORDS[COMP_CWORD]} before=${COMP_WORDS[COMP_CWORD - 1]} option='' ended='' at
  local -a types=(pre-commit pre-merge-commit prepare-commit-msg commit-msg post-commit)
  local -a commits
  COMPREPLY=()
  case $COMP_CWORD,${COMP_WORDS[1]} in
    1,*) _hookhost_git_propose install uninstall run remove hook -h --help --version ;;
    2,hook) _hookhost_git_propose "${types[@]}" ;;
    *,install)
      if [[ $before == -t || $before == --hook-type || ( $before == = && ${COMP_WORDS[COMP_CWORD - 2]} == --hook-type ) ]]; then
        _hookhost_git_propose "${types[@]}"
      else
        _hookhost_git_propose -t --hook-type -h --help
      fi
      ;;
    2,uninstall | 2,remove) _hookhost_git_propose -h --help ;;
    *,run)
      # The last option decides what follows it. Bash parts words at =.
      for ((at = 2; at < COMP_CWORD; at++)); do
        case ${COMP_WORDS[at]} in
          --) ended=1 ;;
          -*) [[ $ended ]] || option=${COMP_WORDS[at]} ;;
        esac
      done
      [[ $word != = ]] || word=''
      if [[ $before == --from-ref || $before == --to-ref || ( $before == = && $option == --*-ref ) ]]; then
        mapfile -t commits < <(git for-each-ref --format="%(refname:short)" 2> /dev/null)
        _hookhost_git_propose HEAD "${commits[@]}"
      elif [[ $before == --color || ( $before == = && $option == --color ) ]]; then
        _hookhost_git_propose auto always never
      elif [[ $word == -* && ! $ended ]]; then
        _hookhost_git_propose -a --all-files --files --from-ref --to-ref --fresh -v --verbose --show-diff-on-failure --color -h --help
      elif [[ $option == --files ]]; then
        _hookhost_git_propose_paths
      fi
      ;;
  esac
}

# Proposes those of the words that begin as the word at the cursor does.
_hookhost_git_propose() {
  local proposed
  for proposed; do
    [[ $proposed != "$word"* ]] || COMPREPLY+=("$proposed")
  done
}

# Proposes the files whose paths begin so. Readline puts quotes around a path that needs them.
_hookhost_git_propose_paths() {
  local path
  case $word in
    [\'\"]*) word=${word:1} ;;
    *) word=${word//\\/} ;;
  esac
  while IFS= read -r path; do
    COMPREPLY+=("$path")
  done < <(compgen -f -- "$word")
  compopt -o filenames 2> /dev/null
}

complete -F _hookhost_git hookhost-git

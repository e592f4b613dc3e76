# Completion of hookhost-reads in bash, made by share/make.py from what its help prints. To use it, in ~/.bashrc:
#   source FOLDER/hookhost-reads.bash

# Puts what can follow at the cursor into COMPREPLY.
_hookhost_reads() {
  local IFS=$' \t\n' at piece parted='' is_joined=''
  local -a words=()
  COMPREPLY=()
  # Bash parts words at = and at :, and here they are whole again. What it has parted from the word at the cursor is `parted`.
  for ((at = 1; at <= COMP_CWORD; at++)); do
    piece=${COMP_WORDS[at]}
    if [[ $is_joined || ( ${#words[@]} -gt 0 && $piece =~ ^[=:]+$ ) ]]; then
      parted=${words[-1]} words[-1]+=$piece is_joined=''
    else
      parted='' words+=("$piece")
    fi
    if [[ ${#words[@]} -gt 1 && $piece =~ ^[=:]+$ ]]; then
      parted=${words[-1]} is_joined=1
    fi
  done
  # The last option decides what follows it. An option is proposed once, and none that can't be given with an earlier one.
  local -a options=(--all-files --files --each --cautious -h --help) taken
  local last='' is_ended='' word each
  for word in "${words[@]:0:${#words[@]}-1}"; do
    if [[ $is_ended || $word != -?* ]]; then
      continue
    elif [[ $word == -- ]]; then
      is_ended=1
      continue
    fi
    case $word in
      --all-files) taken=(--all-files --files) ;;
      --files) taken=(--files --all-files) ;;
      --each) taken=(--each) ;;
      --cautious) taken=(--cautious) ;;
      -h | --help) taken=(-h --help) ;;
      *) taken=() ;;
    esac
    last=$word
    for each in "${taken[@]}"; do
      _hookhost_reads_leave_out "$each"
    done
  done
  word=${words[-1]}
  if [[ ! $is_ended && $word == -* ]]; then
    _hookhost_reads_propose "$word" "${options[@]}"
  elif [[ $last == --files ]]; then
    _hookhost_reads_propose_paths "$word"
  fi
}

# Leaves an option out of those that are proposed.
_hookhost_reads_leave_out() {
  local option
  local -a left=()
  for option in "${options[@]}"; do
    [[ ${option%=} == "$1" ]] || left+=("$option")
  done
  options=("${left[@]}")
}

# Proposes those of the words that begin with the first, without what bash has parted from it.
_hookhost_reads_propose() {
  local word
  for word in "${@:2}"; do
    [[ $word != "$1"* ]] || COMPREPLY+=("${word#"$parted"}")
  done
  # No blank follows an option whose value is still to come.
  [[ ${#COMPREPLY[@]} != 1 || ${COMPREPLY[0]} != *= ]] || compopt -o nospace 2> /dev/null
}

# Proposes the files whose paths begin so, after the second word. Readline puts quotes around a path that needs them.
_hookhost_reads_propose_paths() {
  local path=$1 head=$2
  case $path in
    [\'\"]*) path=${path:1} ;;
    *) path=${path//\\/} ;;
  esac
  while IFS= read -r path; do
    path=$head$path
    COMPREPLY+=("${path#"$parted"}")
  done < <(compgen -f -- "$path")
  compopt -o filenames 2> /dev/null
}

complete -F _hookhost_reads hookhost-reads

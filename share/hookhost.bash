# Completion of hookhost in bash, made by share/make.py from what the program's help prints. To use it, in ~/.bashrc:
#   source FOLDER/hookhost.bash

# Puts what can follow at the cursor into COMPREPLY.
_hookhost() {
  local IFS=$' \t\n' at piece parted='' is_joined=''
  local -a words=()
  COMPREPLY=()
  # Bash parts words at = and at :, and here they are whole again. What it has parted from the word at the cursor is `parted`.
  for ((at = 1; at <= COMP_CWORD; at++)); do
    piece=${COMP_WORDS[at]}
    if [[ $is_joined || ( ${#words[@]} -gt 0 && $piece =~ ^[=:]+$ ) ]]; then
      parted=${words[-1]} words[-1]+=$piece is_joined=''
    else
      parted='' words+=("$piece")
    fi
    if [[ ${#words[@]} -gt 1 && $piece =~ ^[=:]+$ ]]; then
      parted=${words[-1]} is_joined=1
    fi
  done
  case ${#words[@]},${words[0]} in
    1,-*) _hookhost_propose "${words[0]}" -h --help -V --version ;;
    1,*) _hookhost_propose "${words[0]}" init try check explain add rm status cat run run-files hook fixes accept commit log show memory forget ;;
    *) _hookhost_command ;;
  esac
}

# Proposes what may follow a command.
_hookhost_command() {
  # Its options, those of them that take a value, those whose value is a file, and how many paths it takes.
  local -a options valued filed taken=()
  local most
  case ${words[0]} in
    init) options=(-h --help) valued=() filed=() most=0 ;;
    try) options=(--color= --jobs= -h --help) valued=(--color --jobs) filed=() most=any ;;
    check) options=(-h --help) valued=() filed=() most=0 ;;
    explain) options=(-h --help) valued=() filed=() most=1 ;;
    add) options=(--chmod= --paths-from= -h --help) valued=(--chmod --paths-from) filed=(--paths-from) most=any ;;
    rm) options=(--paths-from= -h --help) valued=(--paths-from) filed=(--paths-from) most=any ;;
    status) options=(-h --help) valued=() filed=() most=0 ;;
    cat) options=(--fixed --commit= -h --help) valued=(--commit) filed=() most=1 ;;
    run) options=(--all-files --hook-stage= --fresh --cautious --verbose --color= --jobs= -h --help) valued=(--hook-stage --color --jobs) filed=() most=0 ;;
    run-files) options=(--only= --hook-stage= --fresh --cautious --verbose --color= --jobs= --paths-from= -h --help) valued=(--only --hook-stage --color --jobs --paths-from) filed=(--paths-from) most=any ;;
    hook) options=(--fresh --cautious --color= --jobs= -h --help) valued=(--color --jobs) filed=() most=0 ;;
    fixes) options=(-h --help) valued=() filed=() most=0 ;;
    accept) options=(-h --help) valued=() filed=() most=0 ;;
    commit) options=(--no-verify --color= --jobs= -m -h --help) valued=(--color --jobs -m) filed=() most=0 ;;
    log) options=(-h --help) valued=() filed=() most=0 ;;
    show) options=(-h --help) valued=() filed=() most=0 ;;
    memory) options=(--limit= -h --help) valued=(--limit) filed=() most=0 ;;
    forget) options=(-h --help) valued=() filed=() most=0 ;;
    *) return ;;
  esac
  # An option is proposed once, and after -- each word is a value.
  local given=0 is_ended='' pending='' word
  for word in "${words[@]:1:${#words[@]}-2}"; do
    if [[ $pending ]]; then
      pending=''
    elif [[ $is_ended || $word != -?* ]]; then
      ((given += 1))
    elif [[ $word == -- ]]; then
      is_ended=1
    else
      [[ " ${valued[*]} " != *" $word "* ]] || pending=$word
      _hookhost_leave_out "${word%%=*}"
    fi
  done
  word=${words[-1]}
  if [[ $pending && " ${filed[*]} " == *" $pending "* ]]; then
    _hookhost_propose_paths "$word"
  elif [[ $pending ]]; then
    _hookhost_words "$pending"
    _hookhost_propose "$word" "${taken[@]}"
  elif [[ ! $is_ended && $word == --*=* && " ${filed[*]} " == *" ${word%%=*} "* ]]; then
    _hookhost_propose_paths "${word#*=}" "${word%%=*}="
  elif [[ ! $is_ended && $word == --*=* ]]; then
    _hookhost_words "${word%%=*}"
    _hookhost_propose "$word" "${taken[@]/#/${word%%=*}=}"
  elif [[ ! $is_ended && $word == -* ]]; then
    _hookhost_propose "$word" "${options[@]}"
  elif [[ $most == any ]] || ((given < most)); then
    _hookhost_propose_paths "$word"
  elif [[ ! $is_ended ]]; then
    _hookhost_propose "$word" "${options[@]}"
  fi
}

# Puts the words that an option takes into `taken`.
_hookhost_words() {
  case $1 in
    --color) taken=(auto always never) ;;
    --chmod) taken=(+x) ;;
    --hook-stage) taken=(pre-commit manual) ;;
  esac
}

# Leaves an option out of those that are proposed.
_hookhost_leave_out() {
  local option
  local -a left=()
  for option in "${options[@]}"; do
    [[ ${option%=} == "$1" ]] || left+=("$option")
  done
  options=("${left[@]}")
}

# Proposes those of the words that begin with the first, without what bash has parted from it.
_hookhost_propose() {
  local word
  for word in "${@:2}"; do
    [[ $word != "$1"* ]] || COMPREPLY+=("${word#"$parted"}")
  done
  # No blank follows an option whose value is still to come.
  [[ ${#COMPREPLY[@]} != 1 || ${COMPREPLY[0]} != *= ]] || compopt -o nospace 2> /dev/null
}

# Proposes the files whose paths begin so, after the second word. Readline puts quotes around a path that needs them.
_hookhost_propose_paths() {
  local path=$1 head=$2
  case $path in
    [\'\"]*) path=${path:1} ;;
    *) path=${path//\\/} ;;
  esac
  while IFS= read -r path; do
    path=$head$path
    COMPREPLY+=("${path#"$parted"}")
  done < <(compgen -f -- "$path")
  compopt -o filenames 2> /dev/null
}

complete -F _hookhost hookhost

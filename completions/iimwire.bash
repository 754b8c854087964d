# Completes the arguments of iimwire in bash.
_iimwire() {
  local word=${COMP_WORDS[COMP_CWORD]} before=${COMP_WORDS[COMP_CWORD - 1]} options='-h --help'
  COMPREPLY=()
  if [ "$COMP_CWORD" -eq 1 ]; then
    mapfile -t COMPREPLY < <(compgen -W "check show story pack audit $options -V --version" -- "$word")
    return
  fi
  case $before in
    --now) [ -n "$word" ] || COMPREPLY=("$(date -u +%FT%TZ)"); return ;;
    --subfile | --max) return ;;
  esac
  case ${COMP_WORDS[1]} in
    check | show | story) options="--files-from $options" ;;
    pack) options="--subfile --unknown --max $options" ;;
    audit) options="--now $options" ;;
  esac
  if [[ $word == -* && " ${COMP_WORDS[*]:0:COMP_CWORD} " != *' -- '* ]]; then
    mapfile -t COMPREPLY < <(compgen -W "$options" -- "$word")
  else
    compopt -o filenames 2>/dev/null
    mapfile -t COMPREPLY < <(compgen -f -- "$word")
  fi
}
complete -F _iimwire iimwire

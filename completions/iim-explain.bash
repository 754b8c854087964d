# Completes the arguments of iim-explain in bash.
_iim_explain() {
  local word=${COMP_WORDS[COMP_CWORD]} before=${COMP_WORDS[COMP_CWORD - 1]}
  local options='--envelope --all --encoding --json --html --force --limits -V --version -h --help'
  local encodings='ascii utf-8 latin-1 iso8859-2 iso8859-5 iso8859-15 cp1250 cp1251 cp1252 koi8-r
    gb18030 big5 euc_jp euc_kr'
  COMPREPLY=()
  case $before in
    --encoding) mapfile -t COMPREPLY < <(compgen -W "$encodings" -- "$word"); return ;;
    --envelope | --limits) return ;;
  esac
  if [[ $word == -* && " ${COMP_WORDS[*]:0:COMP_CWORD} " != *' -- '* ]]; then
    mapfile -t COMPREPLY < <(compgen -W "$options" -- "$word")
  else
    compopt -o filenames 2>/dev/null
    mapfile -t COMPREPLY < <(compgen -f -- "$word")
  fi
}
complete -F _iim_explain iim-explain

# Completes the arguments of iim-archive in bash.

# Completes the last of a list of columns, such as file,headline.
_iim_archive_columns() {
  local columns='row file file_hex envelope at length service number date_sent priority size
    subfiles announced counted sent release expires age copy repeats_file repeats_envelope layer
    dataset octet octet_in_file cause cause_name reason linked state sha256 run verified fixity
    slug headline byline keywords category city country story' before=
  [[ $1 != *,* ]] || before=${1%,*},
  mapfile -t COMPREPLY < <(compgen -P "$before" -W "$columns" -- "${1##*,}")
  compopt -o nospace 2>/dev/null
}

_iim_archive() {
  local word=${COMP_WORDS[COMP_CWORD]} before=${COMP_WORDS[COMP_CWORD - 1]} offered= options
  COMPREPLY=()
  case ${COMP_WORDS[1]} in
    query) options='--date --service --cause --words --where --repeats --only --now --fields
      --format --csv --immutable' ;;
    report) options='--html --force --now --limits --root --immutable' ;;
    verify) options='--sample --not-since --root --workers --scheduler --batch --timeout
      --verbose' ;;
    manifest) options='--check --base --bagit --immutable' ;;
    migrate) options= ;;
    *) options='--into --root --again --text --encoding --workers --scheduler --now --name --batch
      --timeout --verbose --limits' ;;
  esac
  case $before in
    --text) offered='none fields all' ;;
    --only) offered='envelope refused empty failed linked gone' ;;
    --format) offered='jsonl json csv' ;;
    --encoding) offered='ascii utf-8 latin-1 iso8859-2 iso8859-5 iso8859-15 cp1250 cp1251 cp1252
      koi8-r gb18030 big5 euc_jp euc_kr' ;;
    --fields) _iim_archive_columns "$word"; return ;;
    --now) [ -n "$word" ] || COMPREPLY=("$(date -u +%FT%TZ)"); return ;;
    --not-since) [ -n "$word" ] || COMPREPLY=("$(date -u +%F)"); return ;;
    --date | --service | --cause | --words | --where | --sample) return ;;
    --workers | --scheduler | --batch | --timeout | --name | --limits) return ;;
  esac
  if [ -n "$offered" ]; then
    mapfile -t COMPREPLY < <(compgen -W "$offered" -- "$word")
  elif [[ $word == -* && " ${COMP_WORDS[*]:0:COMP_CWORD} " != *' -- '* ]]; then
    mapfile -t COMPREPLY < <(compgen -W "$options -h --help" -- "$word")
  else
    offered=
    [ "$COMP_CWORD" -ne 1 ] || offered='query report verify manifest migrate'
    compopt -o filenames 2>/dev/null
    mapfile -t COMPREPLY < <(compgen -W "$offered" -- "$word"; compgen -f -- "$word")
  fi
}
complete -F _iim_archive iim-archive

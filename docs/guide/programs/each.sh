# Run `iimwire check`, or `iimwire audit` at the instant that the first argument names, on each
# named file, and print the name of the file and a tab before each line.
how=$1
shift
IFS='
'
set -f
refused=0
for file; do
  if [ -e "$file" ] && ! [ -s "$file" ]; then
    printf '%s\tempty\n' "$file"
    continue
  fi
  case $how in
    check) lines=$(crates/iimwire/out/iimwire check "$file") ;;
    *) lines=$(crates/iimwire/out/iimwire audit "$file" --now "$how") ;;
  esac || refused=1
  for line in $lines; do
    printf '%s\t%s\n' "$file" "$line"
  done
done
exit $refused

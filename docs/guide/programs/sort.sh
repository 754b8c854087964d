#!/bin/sh
# Sort the named files.
mkdir -p good bad
for file; do
  name=$(basename "$file")
  if ./iimwire check "$file" > "bad/$name.why"; then
    cp "$file" good/
    rm "bad/$name.why"
    ./iimwire show "$file" | sed -n 's/^2:105 //p'
  else
    cp "$file" bad/
    tail -n 1 "bad/$name.why"
  fi
done

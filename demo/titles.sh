#!/bin/sh -e
for text in "$@"; do
  grep --quiet '^# ' "$text" || { echo "$text has no title"; exit 1; }
done

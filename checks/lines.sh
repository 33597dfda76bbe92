#!/bin/sh
# Counts lines: of each crate, and of the definitions that docs/PROMISES.md says to read.
#
# Use: sh checks/lines.sh

cd "$(dirname "$0")/.." || exit 1

# lines FOLDER: the lines of all files below it, 0 where it isn't there.
lines() {
  if [ -d "$1" ]; then
    find "$1" -type f -exec cat {} + | wc -l | tr -d ' '
  else
    echo 0
  fi
}

printf '%-16s %8s %8s %8s %12s\n' crate src specs proofs 'wrong bodies'
for crate in crates/*/; do
  name=$(basename "$crate")
  edits=$(find "$crate/must-fail" -name '*.edit' 2>/dev/null | wc -l | tr -d ' ')
  printf '%-16s %8s %8s %8s %12s\n' "$name" "$(lines "$crate/src")" "$(lines "$crate/specs")" "$(lines "$crate/proofs")" "$edits"
done

# own FILE: the lines of it that are neither blank nor imports.
own() {
  grep -v '^\(pub \)\{0,1\}use ' "$1" | grep -vc '^ *$'
}

# A row of the reading list is: | for | `crate`: `File`, `File`; `crate`: `File` |
echo
echo 'Definitions to read, by docs/PROMISES.md: all lines, and those that are neither blank nor imports'
sed -n '/^## Reading list/,$p' docs/PROMISES.md | grep '^| [^-F]' | while IFS='|' read -r _ what list _; do
  total=0
  definitions=0
  for entry in $(echo "$list" | tr -d '` ' | tr ';' ' '); do
    crate=${entry%%:*}
    for file in $(echo "${entry#*:}" | tr ',' ' '); do
      path=crates/$crate/specs/$file.antt
      if [ -f "$path" ]; then
        total=$((total + $(wc -l <"$path")))
        definitions=$((definitions + $(own "$path")))
      else
        echo "no file $path"
      fi
    done
  done
  printf '%6s %6s %s\n' "$total" "$definitions" "$(echo "$what" | sed 's/^ *//; s/ *$//')"
done

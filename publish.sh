#!/bin/sh
# Publishes packages as NuGet's tools make them into a feed in a folder, and makes the feed where there is none.
#
# Use: sh publish.sh FOLDER [--unlisted] PACKAGE.nupkg..
# Use: sh publish.sh FOLDER [--unlisted] --id ID --version VERSION --nuspec FILE PACKAGE.nupkg
# FOLDER is the feed's folder. The first form takes the metadata out of each package's manifest (see packages.py); where one
# isn't a package, nothing is published. The second takes the id, the version and the manifest from the words. With
# --unlisted what is published is then unlisted. The program is proved and built first where it isn't there. A feed that is
# made here has the base address BASE, http://localhost.feed/ unless it is set.
#
# The program answers each commit, of up to 64 packages, with a line, and then, for each kind of documents that clients
# read, up to which commit they are. The status is that of the first answer that isn't 0; the documents are brought up to
# the last commit also where a publish behind it was refused.

if [ "$#" -lt 2 ]; then
  sed -n 's/^# Use: /use: /p' "$0" >&2
  exit 2
fi
folder=$1
shift
top=$(dirname "$0")
feed=$top/crates/feed/out/feed

# The crates of this repository that the program stands on, by crates.txt, lowest first.
crates() {
  awk -F: '
    { sub(/#.*/, "") }
    NF > 1 { sub(/ .*/, "", $1); below[$1] = $2 }
    function visit(name, parts, n, i) {
      if (name in seen || !(name in below)) return
      seen[name] = 1
      n = split(below[name], parts, " ")
      for (i = 1; i <= n; i++) visit(parts[i])
      print name
    }
    END { visit("feed") }
  ' "$top/crates.txt"
}

# How many of these crates are proved, and built as libraries. The program itself isn't one.
built() {
  for name in "$@"; do
    [ ! -e "$top/crates/$name/out/rlib/stamp" ] || echo "$name"
  done | wc -l | tr -d ' '
}

# Proves the crates, as many side by side as there are processors, and builds the program. It says how far that is.
build() {
  set -- $(crates | grep -v '^feed$')
  echo "publish.sh: proving and building the program, once: it stands on $# crates" >&2
  (cd "$top/crates" && exec rt all check --jobs "$(getconf _NPROCESSORS_ONLN)") >/dev/null 2>&1 </dev/null &
  checking=$!
  before=
  while kill -0 "$checking" 2>/dev/null; do
    now=$(built "$@")
    if [ "$now" != "$before" ]; then
      echo "publish.sh: $now of $# crates are proved" >&2
      before=$now
    fi
    sleep 1
  done
  wait "$checking"
  # Without words the program only says how it is used.
  (cd "$top/crates/feed" && rt run >/dev/null 2>&1 </dev/null)
}

if ! command -v python3 >/dev/null 2>&1; then
  echo "publish.sh: python3 is needed to read packages" >&2
  exit 1
fi
# What the words name is read before the program is built for it.
python3 "$top/packages.py" --check "$@" || exit
if [ ! -x "$feed" ]; then
  build
fi
if [ ! -x "$feed" ]; then
  echo "publish.sh: the program couldn't be built; see rt run in $top/crates/feed" >&2
  exit 1
fi
if [ ! -e "$folder/catalog/index.json" ]; then
  "$feed" "$folder" init "${BASE:-http://localhost.feed/}" </dev/null || exit
fi
python3 "$top/packages.py" "$feed" "$folder" "$@"
status=$?
for hive in content plain semver2 auto; do
  "$feed" "$folder" job "$hive" </dev/null
  ended=$?
  [ "$status" -ne 0 ] || status=$ended
done
echo "publish.sh: where clients look is written by $feed $folder get /v3/index.json" >&2
exit "$status"

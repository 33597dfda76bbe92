#!/bin/sh
# Drives the built program `feed` on a folder of its own: init, publishes, the jobs of two hives, gets, and
# refusals, each of which has to leave every file as it was; then the lock on the folder, with processes side by side,
# and the system calls of a publish. At the end it measures puts a second, which passes and fails nothing. What needs
# python3 or strace is left out where that is missing. It takes about a minute, half of it in a wait for the lock.
#
# Use: sh checks/folder.sh [PROGRAM]
# PROGRAM is crates/feed/out/feed unless it is given, where `rt ci` without names and `rt run` leave it.
# The last line is 'N passed, M failed'; the status is 1 where M isn't 0.

feed=${1:-$(dirname "$0")/../crates/feed/out/feed}
if [ ! -x "$feed" ]; then
  echo "checks/folder.sh: skipped, since there is no program at $feed"
  exit 0
fi

LC_ALL=C
export LC_ALL
work=${TMPDIR:-/tmp}/feed-folder.$$
mkdir "$work" || exit 1
keeper=
trap '[ -z "$keeper" ] || kill "$keeper" 2>/dev/null; rm -rf "$work"' EXIT
trap 'exit 1' HUP INT TERM
store=$work/store
passed=0
failed=0

# check WHAT: counts by the status of the command before it.
check() {
  if [ "$?" -eq 0 ]; then
    passed=$((passed + 1))
  else
    failed=$((failed + 1))
    echo "failed: $1"
  fi
}

# run WORDS..: runs the program on the file `input`, and keeps its output and its status.
run() {
  "$feed" "$store" "$@" <"$work/input" >"$work/output" 2>"$work/errors"
  status=$?
}

# answered STATUS: it ended with this status, wrote exactly the file `want`, and nothing to standard error.
answered() {
  [ "$status" -eq "$1" ] && cmp -s "$work/want" "$work/output" && [ ! -s "$work/errors" ] && return 0
  echo "status $status, wanted $1; the output begins: $(dd if="$work/output" bs=200 count=1 2>/dev/null | tr "\000" "?")"
  return 1
}

# files: every file of the store with its checksum and length.
files() {
  if [ -d "$store" ]; then
    (cd "$store" && find . -type f -exec cksum {} + | sort -k 3)
  fi
}

# does LINE WORDS..: answers this line with status 0.
does() {
  printf '%s\n' "$1" >"$work/want"
  shift
  run "$@"
  answered 0
  check "$*"
}

# holds AREA NAME: the blob of this area is exactly the file `want`.
holds() {
  cmp -s "$work/want" "$store/$1/$2"
  check "$1/$2"
}

# gets PATH: answers exactly the file `want` with status 0, and leaves every file as it was.
gets() {
  files >"$work/before"
  run get "$1"
  answered 0
  check "get $1"
  files >"$work/after"
  cmp -s "$work/before" "$work/after"
  check "every file is as it was: get $1"
}

# refuses WHAT STATUS LINE WORDS..: answers this line with this status, and leaves every file as it was.
refuses() {
  what=$1
  wanted=$2
  printf '%s\n' "$3" >"$work/want"
  shift 3
  files >"$work/before"
  run "$@"
  answered "$wanted"
  check "$what: $*"
  files >"$work/after"
  cmp -s "$work/before" "$work/after"
  check "$what leaves every file as it was: $*"
}

# Standard input: nothing, and the publish of Foo 1.0.0 in 51 bytes, whole and without its last byte.
: >"$work/nothing"
printf '30 10 3\n{"id":"Foo","version":"1.0.0"}<package/>abc' >"$work/publish"
dd if="$work/publish" of="$work/cut" bs=1 count=50 2>/dev/null
cp "$work/nothing" "$work/input"

usage='usage: feed <folder> init|publish|unlist|list|delete|job|cursor|get|verify|script|generate|serve'
zeros=00000000-0000-0000-0000-00000000000
hash=3a81oZNherrMQXNJriBBMRLm+k6JqX6iCp7u5ktV05ohkpkqJ0/BqDa6PCOj/uu9RU1EI2Q86A4qmslPpUyknw==

cp "$work/publish" "$work/input"
refuses 'a publish before init' 3 'refused uninitialised' publish
cp "$work/nothing" "$work/input"
refuses 'a job before init' 3 'refused uninitialised' job content
refuses 'a get before init' 3 'refused uninitialised' get /v3/catalog/index.json

does initialised init http://f.test/
printf '%s' '{"@id":"http://f.test/v3/catalog/index.json","commitId":"'$zeros'0","commitTimeStamp":"0001-01-01T00:00:00.0000000Z","count":0,"items":[]}' >"$work/want"
holds catalog index.json
refuses 'a second init' 3 'refused initialised' init http://f.test/
refuses 'a get before any publish' 3 'refused missing' get /v3/catalog/page0.json
files >"$work/before"
does 'idle content 0' job content
files >"$work/after"
cmp -s "$work/before" "$work/after"
check 'a job on no commits puts nothing'

# The clock is the system's, so the stamp has only its form; the documents have to have the one that was printed.
cp "$work/publish" "$work/input"
run publish
digit='[0-9]'
pair="$digit$digit"
[ "$status" -eq 0 ] && [ ! -s "$work/errors" ] && [ "$(wc -l <"$work/output")" -eq 1 ] &&
  grep -q "^committed 1 2$digit$pair-$pair-${pair}T$pair:$pair:$pair\\.$pair$pair$pair${digit}Z\$" "$work/output"
check 'publish'
stamp=$(sed -n 's/^committed 1 //p' "$work/output")
refuses 'the same publish again' 3 'refused exists 0 1' publish
cp "$work/nothing" "$work/input"
refuses 'a publish of nothing' 3 'refused empty' publish
cp "$work/cut" "$work/input"
refuses 'a publish cut by one byte' 3 'refused body 0' publish
dd if=/dev/zero of="$work/input" bs=1048576 count=64 2>/dev/null
refuses 'a publish of 67,108,864 bytes that are no records' 3 'refused body 0' publish
dd if=/dev/zero of="$work/input" bs=13421773 count=5 2>/dev/null
refuses 'a publish of one byte more' 7 'toolong' publish
cp "$work/nothing" "$work/input"

printf '%s' 'abc' >"$work/want"
holds catalog staged/1/0.nupkg
printf '%s' '<package/>' >"$work/want"
holds catalog staged/1/0.nuspec

printf '%s' '{"@id":"http://f.test/v3/catalog/data/1/0.json","@type":["PackageDetails"],"catalog:commitId":"'$zeros'1","catalog:commitTimeStamp":"'"$stamp"'","created":"'"$stamp"'","id":"Foo","isPrerelease":false,"listed":true,"origin":"1/0","packageHash":"'$hash'","packageHashAlgorithm":"SHA512","packageSize":3,"published":"'"$stamp"'","verbatimVersion":"1.0.0","version":"1.0.0"}' >"$work/want"
holds catalog data/1/0.json
printf '%s' '{"@id":"http://f.test/v3/catalog/page0.json","commitId":"'$zeros'1","commitTimeStamp":"'"$stamp"'","count":1,"items":[{"@id":"http://f.test/v3/catalog/data/1/0.json","@type":"nuget:PackageDetails","commitId":"'$zeros'1","commitTimeStamp":"'"$stamp"'","nuget:id":"Foo","nuget:version":"1.0.0"}],"parent":"http://f.test/v3/catalog/index.json"}' >"$work/want"
holds catalog page0.json
printf '%s' '{"@id":"http://f.test/v3/catalog/index.json","commitId":"'$zeros'1","commitTimeStamp":"'"$stamp"'","count":1,"items":[{"@id":"http://f.test/v3/catalog/page0.json","commitId":"'$zeros'1","commitTimeStamp":"'"$stamp"'","count":1}]}' >"$work/want"
holds catalog index.json

# The catalog's documents by their paths.
for name in index.json page0.json data/1/0.json; do
  cp "$store/catalog/$name" "$work/want"
  gets "/v3/catalog/$name"
done
refuses 'a get of content before a job' 3 'refused missing' get /v3/flat/foo/index.json
refuses 'a get of a registration before a job' 3 'refused missing' get /v3/registration/foo/index.json

# A job that finds no leaf stops before its first put, and so may be done again.
mv "$store/catalog/data/1/0.json" "$work/leaf"
refuses 'a job without a leaf' 6 'damaged catalog/data/1/0.json' job content
refuses 'a get without a leaf' 6 'damaged catalog/data/1/0.json' get /v3/catalog/data/1/0.json
mv "$work/leaf" "$store/catalog/data/1/0.json"

# The content documents.
files >"$work/before"
does 'done content 1' job content
files | grep -v ' \./content/' >"$work/after"
cmp -s "$work/before" "$work/after"
check 'a job leaves the other areas as they were'
printf '%s' '{"commitId":"'$zeros'1","commitTimeStamp":"'"$stamp"'"}' >"$work/want"
holds content cursor.json
printf '%s' '{"versions":["1.0.0"]}' >"$work/want"
holds content d/foo/index.json
gets /v3/flat/foo/index.json
printf '%s' 'abc' >"$work/want"
holds content d/foo/1.0.0/foo.1.0.0.nupkg
gets /v3/flat/foo/1.0.0/foo.1.0.0.nupkg
printf '%s' '<package/>' >"$work/want"
holds content d/foo/1.0.0/foo.nuspec
gets '/v3/flat/foo/1.0.0/foo.nuspec?semVerLevel=2.0.0'
refuses 'a second job puts nothing' 0 'idle content 1' job content
refuses 'the cursor of a hive' 0 'cursor content 1' cursor content
refuses 'the cursor of a hive without a job' 0 'cursor plain 0' cursor plain

# The registration documents without SemVer 2.0.0 packages, in an area of their own.
files >"$work/before"
does 'done plain 1' job plain
files | grep -v ' \./plain/' >"$work/after"
cmp -s "$work/before" "$work/after"
check 'a job of registrations leaves the other areas as they were'
printf '%s' '{"@id":"http://f.test/v3/registration/foo/index.json","commitId":"'$zeros'1","commitTimeStamp":"'"$stamp"'","count":1,"items":[{"@id":"http://f.test/v3/registration/foo/index.json#page/1.0.0/1.0.0","count":1,"items":[{"@id":"http://f.test/v3/registration/foo/1.0.0.json","catalogEntry":{"@id":"http://f.test/v3/catalog/data/1/0.json","id":"Foo","listed":true,"published":"'"$stamp"'","version":"1.0.0"},"packageContent":"http://f.test/v3/flat/foo/1.0.0/foo.1.0.0.nupkg"}],"lower":"1.0.0","parent":"http://f.test/v3/registration/foo/index.json","upper":"1.0.0"}]}' >"$work/want"
holds plain d/foo/index.json
gets /v3/registration/foo/index.json
refuses 'a second job of registrations puts nothing' 0 'idle plain 1' job plain
printf '%s' '{"resources":[{"@id":"http://f.test/v3/catalog/index.json","@type":"Catalog/3.0.0"},{"@id":"http://f.test/v3/flat/","@type":"PackageBaseAddress/3.0.0"},{"@id":"http://f.test/v3/registration/","@type":"RegistrationsBaseUrl"},{"@id":"http://f.test/v3/registration/","@type":"RegistrationsBaseUrl/3.4.0"},{"@id":"http://f.test/v3/registration-semver2/","@type":"RegistrationsBaseUrl/3.6.0"},{"@id":"http://f.test/v3/autocomplete","@type":"SearchAutocompleteService"},{"@id":"http://f.test/v3/autocomplete","@type":"SearchAutocompleteService/3.0.0-rc"}],"version":"3.0.0"}' >"$work/want"
gets /v3/index.json
for path in /v3/autocomplete /admin/cursor/content /admin/publish /admin/stop; do
  refuses 'a get of what a server answers' 3 'refused served' get "$path"
done
for path in /v3/catalog/page1.json /v3/catalog/data/2/0.json /v3/catalog/staged/1/0.nupkg /v3/flat/bar/index.json /v3/flat/Foo/index.json /v3/flat/foo/1.0.0/bar.nuspec /v3/flat/../catalog/index.json /v3/registration/foo/1.0.1.json /v3/registration-semver2/foo/1.0.0.json v3/catalog/index.json; do
  refuses 'a get of nothing' 3 'refused missing' get "$path"
done

refuses 'another base address' 3 'refused base http://f.test/ http://g.test/' get --base=http://g.test/ /v3/index.json
refuses 'another base address, as two words' 3 'refused base http://f.test/ http://g.test/' job plain --base http://g.test/
refuses 'a job of the own base address puts nothing' 0 'idle plain 1' job plain --base=http://f.test/
refuses 'a base of another form' 2 "$usage" publish --base=x
refuses 'an option twice' 2 "$usage" publish --base=http://f.test/ --base=http://f.test/
refuses 'a word that begins with a dash' 2 "$usage" delete Foo -1
refuses 'no word that is known' 2 "$usage" dance
refuses 'a job of no hive' 2 "$usage" job red
refuses 'a cursor of no hive' 2 "$usage" cursor catalog
refuses 'a job without a hive' 2 "$usage" job
refuses 'a get without a path' 2 "$usage" get
refuses 'a get of two paths' 2 "$usage" get /v3/catalog/index.json /v3/catalog/page0.json
refuses 'no word at all' 2 "$usage"
refuses 'init without a base' 2 "$usage" init
"$feed" '' init http://f.test/ <"$work/nothing" >"$work/output" 2>"$work/errors"
status=$?
printf '%s\n' "$usage" >"$work/want"
answered 2
check 'an empty folder is no folder'
# told WORD LINE: a lone word is answered with status 0, and its text has this line.
told() {
  "$feed" "$1" <"$work/nothing" >"$work/output" 2>"$work/errors"
  [ "$?" -eq 0 ] && grep -q -x -F -e "$2" "$work/output" && [ ! -s "$work/errors" ]
  check "$1"
}
told --help 'status 2  the words have no meaning'
told --version 'feed, unreleased'
refuses 'init with a base of another form' 2 "$usage" init http://f.test

# What is left is exactly these files, so no temporary one.
(cd "$store" && find . -type f | sort) >"$work/after"
cat >"$work/want" <<'EOF'
./catalog/data/1/0.json
./catalog/index.json
./catalog/page0.json
./catalog/staged/1/0.nupkg
./catalog/staged/1/0.nuspec
./content/cursor.json
./content/d/foo/1.0.0/foo.1.0.0.nupkg
./content/d/foo/1.0.0/foo.nuspec
./content/d/foo/index.json
./content/s/foo.json
./plain/cursor.json
./plain/d/foo/1.0.0.json
./plain/d/foo/index.json
./plain/s/foo.json
EOF
cmp -s "$work/want" "$work/after"
check 'the folder holds exactly the files of one publish and two jobs'

# A folder that isn't there is made by init alone.
store=$work/absent
refuses 'a get without a folder' 3 'refused uninitialised' get /v3/catalog/index.json
[ ! -e "$store" ]
check 'a get makes no folder'
refuses 'init with a base of another form and without a folder' 2 "$usage" init http://f.test
[ ! -e "$store" ]
check 'words without a meaning make no folder'
store=$work/store

# A file that gives more bytes than its length says, as those of /proc do, is refused.
if [ -r /proc/self/status ] && [ "$(wc -c </proc/self/status)" -gt 0 ]; then
  mv "$store/content/d/foo/index.json" "$work/versions"
  ln -s /proc/self/status "$store/content/d/foo/index.json"
  refuses 'a file that grows while it is read' 4 'fault content' get /v3/flat/foo/index.json
  rm "$store/content/d/foo/index.json"
  mv "$work/versions" "$store/content/d/foo/index.json"
fi

# A second publish, under another id: the page and the index are written anew, the rest is as it was.
printf '30 10 3\n{"id":"Bar","version":"1.0.0"}<package/>abc' >"$work/input"
files | grep -v -e page0 -e index >"$work/before"
run publish
[ "$status" -eq 0 ] && grep -q '^committed 2 ' "$work/output"
check 'a second publish'
files | grep -v -e page0 -e index -e /2/ >"$work/after"
cmp -s "$work/before" "$work/after"
check 'a second publish leaves what the first one brought'
grep -q '"count":2' "$store/catalog/page0.json"
check 'the page has both items'

# keeps FOLDER SECONDS FILE: starts a process that takes the lock on this folder, makes this file, and keeps the lock so
# long. It waits for the file, up to ten seconds.
keeps() {
  python3 -c '
import fcntl, os, sys, time
folder = os.open(sys.argv[1], os.O_RDONLY)
fcntl.flock(folder, fcntl.LOCK_EX)
open(sys.argv[3], "w").close()
time.sleep(float(sys.argv[2]))
' "$1" "$2" "$3" &
  keeper=$!
  tries=0
  while [ ! -e "$3" ] && [ "$tries" -lt 100 ]; do
    sleep 0.1
    tries=$((tries + 1))
  done
}

if command -v python3 >/dev/null 2>&1; then
  # One process at a time: eight that publish twenty packages each, side by side, into one folder. What was told is what
  # the page has, in order of number.
  store=$work/shared
  cp "$work/nothing" "$work/input"
  does initialised init http://f.test/
  python3 - "$feed" "$store" >"$work/output" 2>"$work/errors" <<'EOF'
import json, re, subprocess, sys, threading
feed, store = sys.argv[1], sys.argv[2]
told, bad = [], []

def publish(name):
    meta = b'{"id":"%s","version":"1.0.0"}' % name.encode()
    body = b"%d 10 3\n%s<package/>abc" % (len(meta), meta)
    ran = subprocess.run([feed, store, "publish"], input=body, stdout=subprocess.PIPE, timeout=100)
    line = re.fullmatch(r"committed ([0-9]+) (\S+)\n", ran.stdout.decode())
    if ran.returncode == 0 and line:
        told.append((int(line[1]), line[2], name))
    else:
        bad.append((ran.returncode, ran.stdout))

def publish_all(k):
    for i in range(20):
        publish(f"Worker{k}.Package{i}")

threads = [threading.Thread(target=publish_all, args=(k,)) for k in range(8)]
for thread in threads:
    thread.start()
for thread in threads:
    thread.join()
page = json.load(open(store + "/catalog/page0.json"))
held = [(int(item["commitId"][-12:], 16), item["commitTimeStamp"], item["nuget:id"]) for item in page["items"]]
told.sort()
numbers = [number for number, _, _ in told]
print(bad, len(told), numbers == list(range(1, 161)), told == held, page["count"])
EOF
  printf '%s\n' '[] 160 True True 160' >"$work/want"
  cmp -s "$work/want" "$work/output"
  check "160 publishes side by side: $(cat "$work/output" "$work/errors")"

  # A lock that is released is waited for.
  keeps "$store" 2 "$work/kept"
  cp "$work/publish" "$work/input"
  begin=$(date +%s)
  run publish
  spent=$(($(date +%s) - begin))
  [ "$status" -eq 0 ] && [ "$spent" -ge 1 ] && grep -q '^committed 161 ' "$work/output"
  check "a publish waits for the lock: $spent seconds"
  wait "$keeper"
  keeper=

  # One that isn't released is waited for 30 seconds, and then nothing is changed. Words without a meaning don't ask for it.
  keeps "$store" 200 "$work/kept2"
  begin=$(date +%s)
  refuses 'a publish without the lock' 4 'fault catalog' publish
  spent=$(($(date +%s) - begin))
  [ "$spent" -ge 29 ] && [ "$spent" -le 90 ]
  check "the wait has an end: $spent seconds"
  cp "$work/nothing" "$work/input"

  # A process that is killed leaves no lock behind.
  kill -9 "$keeper"
  wait "$keeper" 2>/dev/null
  keeper=
  cp "$store/catalog/index.json" "$work/want"
  gets /v3/catalog/index.json
else
  echo 'the lock: not checked, since there is no python3'
fi

# In a publish the lock comes first; each put is written, synced and renamed, and its folder is synced, before the next
# begins; and the answer comes last.
if command -v python3 >/dev/null 2>&1 && command -v strace >/dev/null 2>&1 && strace -o /dev/null true 2>/dev/null; then
  store=$work/traced
  cp "$work/nothing" "$work/input"
  does initialised init http://f.test/
  strace -f -y -s 16 -o "$work/trace" -e trace=flock,write,pwrite64,writev,ftruncate,fsync,fdatasync,rename,renameat,renameat2,unlink,unlinkat,mkdir,mkdirat \
    "$feed" "$store" publish <"$work/publish" >"$work/output" 2>"$work/errors"
  python3 - "$work/trace" "$store" >"$work/order" 2>&1 <<'EOF'
import os, re, sys
store = os.path.realpath(sys.argv[2])
before = None
for line in open(sys.argv[1]):
    call = re.match(r"(?:[0-9]+ +)?([a-z]+)[a-z0-9_]*\((.*)\) += [0-9]", line)
    if not call:
        continue
    name, words = call[1], call[2]
    opened, named = re.match(r"[0-9]+<([^>]*)>", words), re.findall(r'"([^"]*)"', words)
    if opened and words.startswith("1<"):
        event = "answer"
    elif opened or named:
        event = f"{name.removesuffix('at')} {os.path.relpath(opened[1] if opened else os.path.realpath(named[-1]), store)}"
    else:
        event = line
    if event != before:
        print(event)
    before = event
EOF
  {
    echo 'flock .'
    before=
    for name in staged/1/0.nupkg staged/1/0.nuspec data/1/0.json page0.json index.json; do
      file=catalog/$name
      folder=$(dirname "$file")
      if [ "$folder" != catalog ] && [ "$folder" != "$before" ]; then
        printf '%s\n' "mkdir $(dirname "$folder")" 'fsync catalog' "mkdir $folder" "fsync $(dirname "$folder")"
      fi
      printf '%s\n' "write $file.tmp" "fsync $file.tmp" "rename $file" "fsync $folder"
      before=$folder
    done
    echo answer
  } >"$work/want"
  cmp -s "$work/want" "$work/order" || diff "$work/want" "$work/order"
  cmp -s "$work/want" "$work/order"
  check 'the system calls of a publish, in their order'
else
  echo 'the order of system calls: not checked, since there is no strace or no python3'
fi

# Puts a second of 50 publishes, each a process that opens the catalog and makes five puts, beside a plain loop in one
# process that writes, syncs and renames files of the same lengths, and syncs their folder.
if command -v python3 >/dev/null 2>&1; then
  python3 - "$feed" "$work/speed" <<'EOF' 2>/dev/null || echo 'speed: not measured'
import os, subprocess, sys, time
feed, folder = sys.argv[1], sys.argv[2]
store, plain = folder + "/store", folder + "/plain"
most, limit = 50, 20.0

def publish(k):
    meta = b'{"id":"Speed%d","version":"1.0.0"}' % k
    body = b"%d 10 3\n%s<package/>abc" % (len(meta), meta)
    return subprocess.run([feed, store, "publish"], input=body, stdout=subprocess.DEVNULL).returncode

def put(name, length):
    path = plain + "/" + name
    os.makedirs(os.path.dirname(path), exist_ok=True)
    with open(path + ".tmp", "wb") as file:
        file.write(b"x" * length)
        file.flush()
        os.fsync(file.fileno())
    os.rename(path + ".tmp", path)
    entry = os.open(os.path.dirname(path), os.O_RDONLY)
    os.fsync(entry)
    os.close(entry)

os.makedirs(folder)
if subprocess.run([feed, store, "init", "http://f.test/"], stdout=subprocess.DEVNULL).returncode != 0:
    sys.exit(1)
lengths, done, spent = [], 0, 0.0
while done < most and spent < limit:
    begin = time.monotonic()
    status = publish(done + 1)
    spent += time.monotonic() - begin
    if status != 0:
        sys.exit(1)
    done += 1
    names = [f"staged/{done}/0.nupkg", f"staged/{done}/0.nuspec", f"data/{done}/0.json", "page0.json", "index.json"]
    lengths += [(name, os.path.getsize(f"{store}/catalog/{name}")) for name in names]
begin = time.monotonic()
for name, length in lengths:
    put(name, length)
loop = time.monotonic() - begin
puts = len(lengths)
print(f"speed: {puts / spent:.0f} puts a second in {done} publishes, {puts / loop:.0f} in a plain loop, ratio {loop / spent:.2f}")
EOF
else
  echo 'speed: not measured, since there is no python3'
fi

echo "$passed passed, $failed failed"
[ "$failed" -eq 0 ]

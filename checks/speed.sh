#!/bin/sh
# A benchmark, and no test: 100 publishes, each by a process of `feed` of its own, beside one process of C that makes the
# same puts with all their syncs. The two take turns, publish by publish, so that the disk is the same for both. Then the
# three hives of catalogs of 128, 256 and 512 packages, each hive by one process, beside the bare puts of the same
# documents. Then commits of 64 packages beside the same packages one by one, and openings of catalogs of 2,000 to 200,000
# items, with one version an id and with twenty, beside a program that reads and parses the same pages: of Rust with stock
# serde_json, or else of Python. Then jobs of catalogs of
# 2,000 and 10,000 versions, the first of each beside the bare puts that it makes, and jobs behind one publish each: of those
# it is checked that they read no leaf but the new one and no state of another id, and put nothing of another id. Last the
# requests of a link in memory that are served in a second, beside the same loop in Rust over stock httparse, with the
# allocations of each. It takes some minutes, and prints the times and their ratios. It is skipped where python3, a C compiler
# or the program is missing, and the last part also where `host_speed`, cargo or the source of httparse is.
#
# Use: sh checks/speed.sh [PROGRAM [SERVING]]
# PROGRAM is crates/feed/out/feed unless it is given, and SERVING crates/host_speed/out/host_speed. The sources of httparse and
# serde_json are looked for in $REGISTRY, and else where Debian's librust-httparse-dev and librust-serde-json-dev put them.

here=$(dirname "$0")
feed=${1:-$here/../crates/feed/out/feed}
serving=${2:-$here/../crates/host_speed/out/host_speed}
for tool in python3 cc; do
  if ! command -v "$tool" >/dev/null 2>&1; then
    echo "checks/speed.sh: skipped, since there is no $tool"
    exit 0
  fi
done
if [ ! -x "$feed" ]; then
  echo "checks/speed.sh: skipped, since there is no program at $feed"
  exit 0
fi

work=${TMPDIR:-/tmp}/feed-speed.$$
mkdir "$work" || exit 1
trap 'rm -rf "$work"' EXIT
trap 'exit 1' HUP INT TERM
cc -O2 -o "$work/puts" "$here/puts.c" || exit 1

python3 - "$feed" "$work" "$serving" "$here" <<'EOF'
import glob, json, os, shutil, subprocess, sys, time

feed, work, serving, here = sys.argv[1:]
store, plain = work + "/store", work + "/plain/catalog"
MOST, LIMIT = 100, 60.0
SIZES, HIVES = [128, 256, 512], ["plain", "semver2", "content"]
ITEMS, PAGE = [2_000, 20_000, 200_000], 512
IDS, VERSIONS, TURNS = [100, 500], 20, 3
HASH = "3a81oZNherrMQXNJriBBMRLm+k6JqX6iCp7u5ktV05ohkpkqJ0/BqDa6PCOj/uu9RU1EI2Q86A4qmslPpUyknw=="
REGISTRY = os.environ.get("REGISTRY", "/usr/share/cargo/registry")
PARSE = "import json, sys; [json.load(open(f'{sys.argv[1]}/page{k}.json')) for k in range(int(sys.argv[2]))]"

def publish(number):
    meta = b'{"id":"Speed%d","version":"1.0.0"}' % number
    body = b"%d 10 3\n%s<package/>abc" % (len(meta), meta)
    begin = time.monotonic()
    ran = subprocess.run([feed, store, "publish"], input=body, stdout=subprocess.DEVNULL)
    spent = time.monotonic() - begin
    if ran.returncode != 0:
        sys.exit("checks/speed.sh: a publish failed")
    return spent

def start():
    """The start of a process of `feed` that calls no store."""
    begin = time.monotonic()
    subprocess.run([feed, "--version"], stdout=subprocess.DEVNULL)
    return time.monotonic() - begin

def bare_puts(folder):
    os.makedirs(folder)
    return subprocess.Popen([work + "/puts", folder], stdin=subprocess.PIPE, stdout=subprocess.PIPE, text=True)

def make_puts(child, area, names):
    plan = "".join(f"{name} {os.path.getsize(f'{area}/{name}')}\n" for name in names) + "\n"
    begin = time.monotonic()
    child.stdin.write(plan)
    child.stdin.flush()
    answer = child.stdout.readline()
    spent = time.monotonic() - begin
    if answer != "done\n":
        sys.exit("checks/speed.sh: a put failed")
    return spent

def puts(child, number):
    names = [f"staged/{number}/0.nupkg", f"staged/{number}/0.nuspec", f"data/{number}/0.json", "page0.json", "index.json"]
    return make_puts(child, store + "/catalog", names)

def documents(area):
    return sorted(os.path.relpath(f"{folder}/{file}", area) for folder, _, files in os.walk(area) for file in files)

def build(copy, hive):
    begin = time.monotonic()
    ran = subprocess.run([feed, copy, "job", hive], stdout=subprocess.DEVNULL)
    spent = time.monotonic() - begin
    if ran.returncode != 0:
        sys.exit(f"checks/speed.sh: job {hive} failed")
    return spent

def hives(size):
    copy = f"{work}/store{size}"
    shutil.copytree(store, copy)
    for hive in HIVES:
        ours = build(copy, hive)
        names = documents(f"{copy}/{hive}")
        child = bare_puts(f"{work}/plain{size}/{hive}")
        theirs = make_puts(child, f"{copy}/{hive}", names)
        child.stdin.close()
        child.wait()
        told = f"{len(names)} documents, {ours / len(names) * 1000:.2f} ms each, bare puts {theirs / len(names) * 1000:.2f} ms"
        print(f"{hive} of {size} packages: {told}, ratio {ours / theirs:.2f}")

def record(name, version="1.0.0"):
    meta = b'{"id":"%s","version":"%s"}' % (name.encode(), version.encode())
    return b"%d 10 3\n%s<package/>abc" % (len(meta), meta)

def told(words, body=b""):
    begin = time.monotonic()
    ran = subprocess.run([feed, *words], input=body, stdout=subprocess.PIPE)
    if ran.returncode != 0:
        sys.exit(f"checks/speed.sh: {words} was told {ran.stdout}")
    return time.monotonic() - begin

def together():
    """Eight commits of 64 packages in one folder, and a quarter as many packages one by one in another, in turns."""
    many, single = work + "/many", work + "/single"
    for folder in [many, single]:
        told([folder, "init", "http://f.test/"])
    all_at_once = one_by_one = 0.0
    for turn in range(8):
        names = [f"Turn{turn}.Package{at}" for at in range(64)]
        all_at_once += told([many, "publish"], b"".join(map(record, names))) / 64
        one_by_one += sum(told([single, "publish"], record(name)) for name in names[:16]) / 16
    print(f"64 packages in one commit: {all_at_once / 8 * 1000:.2f} ms each, one by one {one_by_one / 8 * 1000:.2f} ms, "
          f"ratio {all_at_once / one_by_one:.2f}")

def one_id():
    """The hives of a catalog of one id, of which a job has all versions before it at each."""
    for count in [128, 512, 2048]:
        folder = f"{work}/one{count}"
        told([folder, "init", "http://f.test/"])
        for first in range(0, count, 64):
            told([folder, "publish"], b"".join(record("Foo", f"1.{minor}.0") for minor in range(first, first + 64)))
        for hive in HIVES:
            ours = told([folder, "job", hive])
            length = len(documents(f"{folder}/{hive}"))
            print(f"{hive} of one id with {count} versions: {length} documents, {ours / length * 1000:.2f} ms each")

def stamp(number):
    return f"2024-01-01T{number // 3600:02d}:{number // 60 % 60:02d}:{number % 60:02d}.0000000Z"

def head_of(number):
    return {"commitId": f"00000000-0000-0000-0000-{number:012x}", "commitTimeStamp": stamp(number)}

def dump(name, value):
    with open(name, "w", encoding="ascii") as file:
        json.dump(value, file, separators=(",", ":"))

def one_version(at):
    """An id and a version, of ids with one version each."""
    return f"Some.Package{at}", "1.0.0"

def twenty_versions(at):
    """The same of ids of which 200,000 items have twenty versions each."""
    return f"Some.Package{at % 10_000}", f"1.{at // 10_000}.0"

def catalog_of(area, items, named=one_version):
    """The index and the pages of a catalog of so many publishes, 64 a commit; no opening reads leaves."""
    base, heads = "http://f.test/v3/catalog/", []
    os.makedirs(area)
    for first in range(0, items, PAGE):
        rows = []
        for at in range(first, min(first + PAGE, items)):
            number, place = at // 64 + 1, at % 64
            name, version = named(at)
            head = head_of(number)
            rows.append({"@id": f"{base}data/{number}/{place}.json", "@type": "nuget:PackageDetails", **head,
                         "nuget:id": name, "nuget:version": version})
        name = f"page{first // PAGE}.json"
        heads.append({"@id": base + name, **head, "count": len(rows)})
        dump(f"{area}/{name}", {**heads[-1], "items": rows, "parent": base + "index.json"})
    dump(f"{area}/index.json", {"@id": base + "index.json", **head, "count": len(heads), "items": heads})
    return len(heads)

def leaves_of(area, items, named):
    """The leaves of such a catalog, as the program writes them."""
    for at in range(items):
        number, place = at // 64 + 1, at % 64
        name, version = named(at)
        head = head_of(number)
        moment = head["commitTimeStamp"]
        os.makedirs(f"{area}/data/{number}", exist_ok=True)
        dump(f"{area}/data/{number}/{place}.json", {
            "@id": f"http://f.test/v3/catalog/data/{number}/{place}.json", "@type": ["PackageDetails"],
            "catalog:commitId": head["commitId"], "catalog:commitTimeStamp": moment, "created": moment, "id": name,
            "isPrerelease": False, "listed": True, "origin": f"{number}/{place}", "packageHash": HASH,
            "packageHashAlgorithm": "SHA512", "packageSize": 3, "published": moment, "verbatimVersion": version,
            "version": version})

def best_of(times, words):
    spent = []
    for _ in range(times):
        begin = time.monotonic()
        child = subprocess.Popen(words, stdin=subprocess.DEVNULL, stdout=subprocess.DEVNULL)
        _, status, usage = os.wait4(child.pid, 0)
        spent.append((time.monotonic() - begin, usage.ru_maxrss))
        if status != 0:
            sys.exit(f"checks/speed.sh: {words} ended with {status}")
    return min(spent)

def rust_program(source, package, registry):
    """A program of Rust that needs one package, if it can be made: the package's sources are looked for in this folder."""
    found = sorted(glob.glob(f"{registry}/{package}-[0-9]*"))
    if not found or not shutil.which("cargo"):
        return None
    folder = f"{work}/{source}"
    os.makedirs(folder + "/src")
    os.makedirs(folder + "/.cargo")
    shutil.copy(f"{here}/{source}.rs", folder + "/src/main.rs")
    version = found[-1].rsplit("-", 1)[1]
    with open(folder + "/Cargo.toml", "w", encoding="utf-8") as file:
        file.write(f'[package]\nname = "{source}"\nversion = "0.1.0"\nedition = "2021"\n'
                   f'[dependencies]\n{package} = "={version}"\n[profile.release]\nopt-level = 3\n')
    with open(folder + "/.cargo/config.toml", "w", encoding="utf-8") as file:
        file.write(f'[source.crates-io]\nreplace-with = "here"\n[source.here]\ndirectory = "{registry}"\n')
    made = subprocess.run(["cargo", "build", "--release", "--offline", "--quiet"], cwd=folder, stderr=subprocess.DEVNULL)
    return f"{folder}/target/release/{source}" if made.returncode == 0 else None

def openings():
    parser = rust_program("parse", "serde_json", REGISTRY)
    reader, name = ([parser], "serde_json in Rust") if parser else ([sys.executable, "-c", PARSE], "Python's reader")
    shapes = [(items, "one version", one_version) for items in ITEMS] + [(ITEMS[-1], "twenty versions", twenty_versions)]
    for items, versions, named in shapes:
        folder = f"{work}/{named.__name__}{items}"
        pages = catalog_of(folder + "/catalog", items, named)
        length = sum(os.path.getsize(f"{folder}/catalog/page{page}.json") for page in range(pages))
        ours, memory = best_of(3, [feed, folder, "get", "/v3/catalog/index.json"])
        theirs, _ = best_of(3, [*reader, folder + "/catalog", str(pages)])
        print(f"opening {items} items, {versions} an id, {length / (1 << 20):.1f} MiB of pages: {ours * 1000:.0f} ms, {ours / items * 1e6:.2f} us an item, "
              f"{memory / 1024:.1f} MiB of memory at the most; {name} {theirs * 1000:.0f} ms, ratio {ours / theirs:.2f}")

def answered(program, requests, environment=None):
    begin = time.monotonic()
    ran = subprocess.run([program], input=b"%d\n" % requests, stdout=subprocess.PIPE, stderr=subprocess.PIPE, env=environment)
    spent = time.monotonic() - begin
    if ran.stdout != b"ByClient %d\n" % (93 * requests):
        sys.exit(f"checks/speed.sh: {program} told {ran.stdout}")
    return spent, ran.stderr

def allocations(program):
    """How many times a request takes memory, by two runs of which one has a thousand requests more."""
    counted = {**os.environ, "LD_PRELOAD": work + "/allocs.so"}
    few, many = (int(answered(program, requests, counted)[1]) for requests in [1000, 2000])
    return (many - few) / 1000

def requests():
    theirs = rust_program("serve", "httparse", REGISTRY)
    made = subprocess.run(["cc", "-O2", "-shared", "-fPIC", "-o", work + "/allocs.so", here + "/allocs.c"])
    if theirs is None or made.returncode != 0:
        print("requests of a link: skipped, since there is no program of it, no cargo or no httparse")
        return
    count, times = 1_000_000, {serving: [], theirs: []}
    for _ in range(5):
        for program in times:
            times[program].append(answered(program, count)[0])
    ours, beside = min(times[serving]), min(times[theirs])
    print(f"{count} requests of a link, each answered with 22 bytes: {count / ours:.0f} a second with {allocations(serving):.0f} "
          f"allocations each, by stock httparse in Rust {count / beside:.0f} with {allocations(theirs):.0f}, ratio {beside / ours:.2f}")

def round_puts(area):
    """The puts of a first job, in order: of each id its state, its documents and its state again; last the cursor."""
    names = []
    for state in sorted(os.listdir(f"{area}/s")):
        own = f"d/{state[:-5]}"
        names += [f"s/{state}", *(f"{own}/{name}" for name in documents(f"{area}/{own}")), f"s/{state}"]
    return names + ["cursor.json"]

def first_round(folder, items):
    ours = told([folder, "job", "plain"])
    names = round_puts(folder + "/plain")
    child = bare_puts(f"{folder}.puts")
    theirs = make_puts(child, folder + "/plain", names)
    child.stdin.close()
    child.wait()
    print(f"a job over {items} new items: {len(names)} puts, {ours / len(names) * 1000:.2f} ms each, "
          f"bare puts {theirs / len(names) * 1000:.2f} ms, ratio {ours / theirs:.2f}")

def files(area):
    """Each file's number, which a put changes, by name."""
    return {name: os.stat(f"{area}/{name}").st_ino for name in documents(area)}

def damage_others(folder, key):
    """Removes all leaves, and spoils the states of all ids but one: a job that reads one of them is told `damaged`."""
    shutil.rmtree(folder + "/catalog/data")
    for state in os.listdir(folder + "/plain/s"):
        if state != key + ".json":
            with open(f"{folder}/plain/s/{state}", "w", encoding="ascii") as file:
                file.write("{}")

def next_rounds(folder, items):
    rounds, openings, key = [], [], "some.package0"
    damage_others(folder, key)
    for turn in range(TURNS):
        told([folder, "publish"], record("Some.Package0", f"2.{turn}.0"))
        openings.append(told([folder, "cursor", "plain"]))
        before = files(folder + "/plain")
        rounds.append(told([folder, "job", "plain"]))
        after = files(folder + "/plain")
        changed = sorted(name for name in after if before.get(name) != after[name])
        others = [name for name in changed if name not in ["cursor.json", f"s/{key}.json"] and not name.startswith(f"d/{key}/")]
        if others or before.keys() - after.keys():
            sys.exit(f"checks/speed.sh: a job of one id put or removed {others or before.keys() - after.keys()}")
    ours, opening = min(rounds), min(openings)
    print(f"a job behind one publish into {items} versions: {len(changed)} documents, {ours * 1000:.1f} ms, "
          f"of which {opening * 1000:.1f} ms are the opening's")
    return ours - opening

def rounds():
    """First jobs, and jobs of one id, of catalogs of 20 versions of each of so many ids."""
    beside = []
    for ids in IDS:
        folder, items = f"{work}/rounds{ids}", ids * VERSIONS
        named = lambda at: (f"Some.Package{at % ids}", f"1.{at // ids}.0")
        catalog_of(folder + "/catalog", items, named)
        leaves_of(folder + "/catalog", items, named)
        first_round(folder, items)
        beside.append(next_rounds(folder, items))
    print(f"a job of one id without the opening: {beside[0] * 1000:.1f} ms, and {beside[1] * 1000:.1f} ms of {IDS[1] // IDS[0]} times "
          f"as many versions")

if subprocess.run([feed, store, "init", "http://f.test/"], stdout=subprocess.DEVNULL).returncode != 0:
    sys.exit("checks/speed.sh: init failed")
child = bare_puts(plain)
ours, theirs, starts, done = 0.0, 0.0, 0.0, 0
while done < MOST and ours + theirs < LIMIT:
    done += 1
    ours += publish(done)
    theirs += puts(child, done)
    starts += start()
child.stdin.close()
child.wait()
print(f"{done} publishes: {ours / done * 1000:.2f} ms each, of which {starts / done * 1000:.2f} ms are the start of a process; "
      f"bare puts {theirs / done * 1000:.2f} ms, ratio {ours / theirs:.2f}")
for size in SIZES:
    while done < size:
        done += 1
        publish(done)
    hives(size)
one_id()
together()
openings()
rounds()
requests()
EOF

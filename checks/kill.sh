#!/bin/sh
# Kills the program in the middle of publishes, and of unlistings, relistings and deletes where the program knows them, on a
# folder of its own (`kill -9` after a random time, by a fixed seed). It opens the feed after each, and compares every file of
# the catalog with what may be there: the documents of the commits that were told, with the one that was killed or without
# it; what attempts at a commit of the same number brought; an index that lags until the next opening; temporary files. It
# ends only processes that it started, and takes some minutes at the most. It is skipped where python3 or the program is
# missing.
#
# Use: sh checks/kill.sh [PROGRAM [KILLS]]
# PROGRAM is crates/feed/out/feed unless it is given, KILLS 300. The last line is 'N passed, M failed'; the status is 1 where
# M isn't 0.

feed=${1:-$(dirname "$0")/../crates/feed/out/feed}
if ! command -v python3 >/dev/null 2>&1; then
  echo "checks/kill.sh: skipped, since there is no python3"
  exit 0
fi
if [ ! -x "$feed" ]; then
  echo "checks/kill.sh: skipped, since there is no program at $feed"
  exit 0
fi
work=${TMPDIR:-/tmp}/feed-kill.$$
mkdir "$work" || exit 1
trap 'rm -rf "$work"' EXIT
trap 'exit 1' HUP INT TERM

python3 - "$feed" "$work" "${2:-300}" <<'END'
import base64, copy, hashlib, json, os, random, subprocess, sys, time

feed, store, kills = sys.argv[1], sys.argv[2] + "/store", int(sys.argv[3])
BASE, LIMIT, PAGE = "http://f.test/v3/catalog/", 600.0, 512
dice = random.Random(20261201)


class Wrong(Exception):
    pass


def text(value):
    return json.dumps(value, separators=(",", ":"), ensure_ascii=False).encode()


def guid(number):
    return f"00000000-0000-0000-0000-{number:012x}"


class Commit:
    """A commit of one change: its number, the kind of change, the version, and what its item says."""

    def __init__(self, number, kind, name, version, last):
        self.number, self.kind, self.name, self.version, self.stamp = number, kind, name, version, None
        self.package, self.manifest = b"package %d" % number, b"<package><!-- %d --></package>" % number
        self.origin = None if kind == "publish" else last.publish()
        self.gone, self.listed = kind == "delete", kind in ["publish", "list"]

    def publish(self):
        return self if self.origin is None else self.origin

    def staged(self):
        if self.kind != "publish":
            return {}
        return {f"staged/{self.number}/0.nupkg": self.package, f"staged/{self.number}/0.nuspec": self.manifest}

    def head(self):
        return {"commitId": guid(self.number), "commitTimeStamp": self.stamp}

    def leaf(self):
        made = {"@id": f"{BASE}data/{self.number}/0.json", "@type": ["PackageDelete" if self.gone else "PackageDetails"],
                "catalog:commitId": guid(self.number), "catalog:commitTimeStamp": self.stamp}
        if self.gone:
            return text(made | {"id": self.name, "published": self.stamp, "version": self.version})
        publish = self.publish()
        return text(made | {
            "created": publish.stamp, "id": self.name, "isPrerelease": False, "listed": self.listed,
            "origin": f"{publish.number}/0", "packageHash": base64.b64encode(hashlib.sha512(publish.package).digest()).decode(),
            "packageHashAlgorithm": "SHA512", "packageSize": len(publish.package),
            "published": publish.stamp if self.listed else "1900-01-01T00:00:00.0000000Z",
            "verbatimVersion": self.version, "version": self.version})

    def row(self):
        return {"@id": f"{BASE}data/{self.number}/0.json", "@type": "nuget:PackageDelete" if self.gone else "nuget:PackageDetails",
                **self.head(), "nuget:id": self.name, "nuget:version": self.version}


def index(commits):
    pages = [commits[at:at + PAGE] for at in range(0, len(commits), PAGE)]
    head = commits[-1].head() if commits else {"commitId": guid(0), "commitTimeStamp": "0001-01-01T00:00:00.0000000Z"}
    items = [{"@id": f"{BASE}page{at}.json", **page[-1].head(), "count": len(page)} for at, page in enumerate(pages)]
    return text({"@id": f"{BASE}index.json", **head, "count": len(pages), "items": items})


def documents(commits):
    made = {"index.json": index(commits)}
    for at in range(0, len(commits), PAGE):
        page = commits[at:at + PAGE]
        name = f"page{at // PAGE}.json"
        made[name] = text({"@id": BASE + name, **page[-1].head(), "count": len(page), "items": [c.row() for c in page],
                           "parent": f"{BASE}index.json"})
    for commit in commits:
        made[f"data/{commit.number}/0.json"] = commit.leaf()
        made |= commit.staged()
    return made


def files():
    area, made = store + "/catalog", {}
    for folder, _, names in os.walk(area):
        for name in names:
            path = f"{folder}/{name}"
            with open(path, "rb") as file:
                made[os.path.relpath(path, area)] = file.read()
    return made


def run(*words, body=b"", kill=None):
    child = subprocess.Popen([feed, store, *words], stdin=subprocess.PIPE, stdout=subprocess.PIPE, stderr=subprocess.DEVNULL)
    try:
        out, _ = child.communicate(body, timeout=kill)
    except subprocess.TimeoutExpired:
        child.kill()
        out, _ = child.communicate()
    return child.returncode, out.decode()


def start(commit, kill):
    """Begins the commit, and kills it after a time, unless it ends before. Answers the number that was told."""
    words = [commit.kind] if commit.kind == "publish" else [commit.kind, commit.name, commit.version]
    body = b""
    if commit.kind == "publish":
        meta = text({"id": commit.name, "version": commit.version})
        body = b"%d %d %d\n" % (len(meta), len(commit.manifest), len(commit.package)) + meta + commit.manifest + commit.package
    status, out = run(*words, body=body, kill=kill)
    if out.endswith("\n") and not out.startswith(f"committed {commit.number} "):
        raise Wrong(f"{words} was told {out!r}")
    return out.endswith("\n")


def stamp_of(number):
    """The stamp of a commit, by the page that is held."""
    with open(f"{store}/catalog/page{(number - 1) // PAGE}.json", "rb") as file:
        return json.load(file)["items"][(number - 1) % PAGE]["commitTimeStamp"]


def held_count():
    at = 0
    while os.path.exists(f"{store}/catalog/page{at}.json"):
        at += 1
    if at == 0:
        return 0
    with open(f"{store}/catalog/page{at - 1}.json", "rb") as file:
        return (at - 1) * PAGE + json.load(file)["count"]


def was_brought(name, data, attempts):
    """Whether one of the attempts at a commit of this number put the blob: its package, its manifest, or its leaf."""
    for attempt in attempts:
        if attempt.staged().get(name) == data:
            return True
        if name == f"data/{attempt.number}/0.json":
            attempt.stamp = json.loads(data)["catalog:commitTimeStamp"]
            if attempt.leaf() == data:
                return True
    return False


def compare(found, want, attempts, lagging, when):
    for name, data in found.items():
        if name in want:
            if data != want[name] and not (name == "index.json" and data == lagging):
                raise Wrong(f"{when}: {name} isn't as it is to be")
        elif not name.endswith(".tmp") and not any(was_brought(name, data, of_number) for of_number in attempts.values()):
            raise Wrong(f"{when}: {name} isn't of this feed")
    lost = set(want) - set(found)
    if lost:
        raise Wrong(f"{when}: not there: {sorted(lost)}")


def one(commits, commit, attempts, kill):
    """One commit that is killed or not, and the next opening. Answers the commits that are there."""
    before = index(commits)
    attempts.setdefault(commit.number, []).append(copy.copy(commit))
    told = start(commit, kill)
    count = held_count()
    if count not in [len(commits), len(commits) + 1] or told and count == len(commits):
        raise Wrong(f"{count} commits are held, {len(commits)} were before, and the last was {'told' if told else 'not told'}")
    after = list(commits)
    if count == len(commits) + 1:
        commit.stamp = stamp_of(commit.number)
        if commits and commit.stamp <= commits[-1].stamp:
            raise Wrong(f"the stamp of {commit.number} isn't above the last")
        after.append(commit)
    want = documents(after)
    compare(files(), want, attempts, before, "after the kill")
    status, out = run("get", "/v3/catalog/index.json")
    if status != 0 or out.encode() != want["index.json"]:
        raise Wrong(f"the feed doesn't open as its catalog: status {status}, {out[:80]!r}")
    compare(files(), want, attempts, None, "after the opening")
    return after


def change(commits):
    """A change that the catalog takes: now and then of a version that is there, else a publish."""
    number, last = len(commits) + 1, {}
    for commit in commits:
        last[commit.name] = commit
    there = [commit for commit in last.values() if not commit.gone]
    if there and KINDS and dice.random() < 0.6:
        of = dice.choice(there)
        kind = dice.choice(["delete", "unlist" if of.listed else "list"])
        return Commit(number, kind, of.name, "1.0.0", of)
    return Commit(number, "publish", f"Kill{dice.randrange(10 ** 6)}", "1.0.0", None)


if run("init", "http://f.test/")[0] != 0:
    sys.exit("checks/kill.sh: init failed")
KINDS = run("unlist", "None", "1.0.0")[1].startswith("refused absent")
begin = time.monotonic()
commits, attempts, killed, passed, failed = [], {}, 0, 0, 0
spent = 0.02
while killed < kills and not failed and time.monotonic() - begin < LIMIT:
    commit = change(commits)
    # Each tenth is not killed, and tells how long a commit takes.
    kill = None if passed % 10 == 0 else dice.uniform(0, 1.2 * spent)
    at = time.monotonic()
    try:
        commits = one(commits, commit, attempts, kill)
        passed += 1
    except Wrong as wrong:
        failed += 1
        print(f"failed: commit {commit.number}, a {commit.kind}: {wrong}")
    killed += kill is not None
    if kill is None:
        spent = max(0.005, min(0.2, (time.monotonic() - at) / 2))
if killed < kills and not failed:
    print(f"checks/kill.sh: {killed} kills in {LIMIT:.0f} seconds")
print(f"{passed} passed, {failed} failed")
sys.exit(failed > 0)
END

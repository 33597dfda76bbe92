#!/bin/sh
# Package files as NuGet's tools make them: the tests of packages.py, and then publishes of real packages by the built program,
# the example and those of Debian (nupkg-newtonsoft.json.6.0.8 and nupkg-nunit.2.6.4) where they are installed. Of each, the
# catalog's leaf is compared with the file. Then the registration index that docs/FORMATS.md shows is compared with the
# program's. It is skipped where python3 or the program is missing.
#
# Use: sh checks/packages.sh [PROGRAM [FOLDER]]
# PROGRAM is crates/feed/out/feed unless it is given, FOLDER, where Debian's packages stand, /usr/share/nupkg. Each part ends in
# 'N passed, M failed'; the status is 1 where an M isn't 0.

here=$(dirname "$0")
feed=${1:-$here/../crates/feed/out/feed}
nupkg=${2:-/usr/share/nupkg}
if ! command -v python3 >/dev/null 2>&1; then
  echo "checks/packages.sh: skipped, since there is no python3"
  exit 0
fi
python3 "$here/packages_test.py" || exit
if [ ! -x "$feed" ]; then
  echo "checks/packages.sh: no package is published, since there is no program at $feed"
  exit 0
fi
work=${TMPDIR:-/tmp}/feed-packages.$$
mkdir "$work" || exit 1
trap 'rm -rf "$work"' EXIT
trap 'exit 1' HUP INT TERM

set -- "$here/../examples/Hello.1.0.0.nupkg"
for name in Newtonsoft.Json.6.0.8 NUnit.2.6.4; do
  [ ! -r "$nupkg/$name.nupkg" ] || set -- "$@" "$nupkg/$name.nupkg"
done
python3 - "$here" "$feed" "$work/store" "$@" <<'END'
import base64, hashlib, json, os, re, subprocess, sys, xml.etree.ElementTree as tree, zipfile

here, feed, store, *paths = sys.argv[1:]
passed = failed = 0
HIVES = [b"content", b"plain", b"semver2", b"auto"]


def check(what, done):
    global passed, failed
    passed, failed = passed + bool(done), failed + (not done)
    if not done:
        print("failed:", what)


def run(*words):
    return subprocess.run(words, stdin=subprocess.DEVNULL, capture_output=True)


def manifest(path):
    """The texts of a manifest's elements, read by another reader than packages.py's."""
    with zipfile.ZipFile(path) as archive:
        root = tree.fromstring(archive.read(next(name for name in archive.namelist() if name.endswith(".nuspec"))))
    return {element.tag.rpartition("}")[2]: (element.text or "").strip() for element in root[0]}


ran = run(feed, store, "init", "http://f.test/")
ran = run(sys.executable, here + "/../packages.py", feed, store, *paths)
check(f"{len(paths)} packages in one commit: {ran.stdout}", re.fullmatch(rb"committed 1 \S+\n", ran.stdout) and ran.returncode == 0)
for place, path in enumerate(paths):
    leaf = json.loads(run(feed, store, "get", f"/v3/catalog/data/1/{place}.json").stdout or b"{}")
    given = manifest(path)
    with open(path, "rb") as file:
        data = file.read()
    check(f"{path}: the hash", leaf.get("packageHash") == base64.b64encode(hashlib.sha512(data).digest()).decode())
    check(f"{path}: the size", leaf.get("packageSize") == len(data))
    for name in ["id", "version", "authors", "description", "licenseUrl", "projectUrl", "title", "summary", "releaseNotes", "iconUrl"]:
        check(f"{path}: {name}", leaf.get(name, "") == given.get(name, ""))
    check(f"{path}: the tags", leaf.get("tags", []) == given.get("tags", "").split())
ran = run(sys.executable, here + "/../packages.py", feed, store, *paths)
check(f"the same again: {ran.stdout}", (ran.returncode, ran.stdout) == (3, b"refused exists 0 1\n"))

# The shown index: of the metadata in the first block behind the heading that has one, with the stamp of the commit.
with open(here + "/../docs/FORMATS.md", encoding="utf-8") as file:
    section = file.read().partition("\n## Registration documents\n")[2].partition("\n## ")[0]
metadata, shown = (block.strip("\n").replace("\n", "").encode() for block in section.split("```")[1::2])
other = store + "2"
run(feed, other, "init", "http://f.test/")
body = b"%d 10 3\n%s<package/>abc" % (len(metadata), metadata)
ran = subprocess.run([feed, other, "publish"], input=body, capture_output=True)
stamp = ran.stdout.split()[-1]
check(f"the publish of the shown metadata: {ran.stdout}", ran.returncode == 0)
check("its job", run(feed, other, "job", "plain").stdout == b"done plain 1\n")
want = shown.replace(b"2024-01-01T00:00:00.0000000Z", stamp)
check("the shown index", run(feed, other, "get", "/v3/registration/foo/index.json").stdout == want)

# One command, where the program stands in its own place: a feed with its commit and what clients read.
own = here + "/../crates/feed/out/feed"
if os.path.exists(own) and os.path.samefile(feed, own):
    one = store + "3"
    ran = run("sh", here + "/../publish.sh", one, paths[0])
    told = rb"initialised\ncommitted 1 \S+\n" + b"".join(b"done %s 1\n" % hive for hive in HIVES)
    check(f"publish.sh: {ran.stdout}", ran.returncode == 0 and re.fullmatch(told, ran.stdout))
    check("what it built", run(feed, one, "get", "/v3/flat/hello/index.json").stdout == b'{"versions":["1.0.0"]}')
    ran = run("sh", here + "/../publish.sh", one, paths[0])
    told = b"refused exists 0 1\n" + b"".join(b"idle %s 1\n" % hive for hive in HIVES)
    check(f"publish.sh again: {ran.stdout}", (ran.returncode, ran.stdout) == (3, told))
print(f"{passed} passed, {failed} failed")
sys.exit(failed > 0)
END

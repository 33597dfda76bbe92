#!/bin/sh
# A feed as clients read it: publishes packages, runs the jobs, serves the folder by nginx on loopback with examples/nginx.conf,
# follows the service index to registrations, packages and manifests by curl, and compares every byte with what the program's
# `get` writes and with the package files. What isn't for clients has to be 404. It is skipped where nginx, curl, python3 or the
# program is missing.
#
# Use: sh checks/nginx.sh [PROGRAM [FOLDER]]
# PROGRAM is crates/feed/out/feed unless it is given, FOLDER, where Debian's packages stand, /usr/share/nupkg. It ends in
# 'N passed, M failed'; the status is 1 where M isn't 0.

here=$(dirname "$0")
feed=${1:-$here/../crates/feed/out/feed}
nupkg=${2:-/usr/share/nupkg}
for tool in nginx curl python3; do
  if ! command -v $tool >/dev/null 2>&1; then
    echo "checks/nginx.sh: skipped, since there is no $tool"
    exit 0
  fi
done
if [ ! -x "$feed" ]; then
  echo "checks/nginx.sh: skipped, since there is no program at $feed"
  exit 0
fi
work=${TMPDIR:-/tmp}/feed-nginx.$$
mkdir "$work" || exit 1
trap 'rm -rf "$work"' EXIT
trap 'exit 1' HUP INT TERM

set -- "$here/../examples/Hello.1.0.0.nupkg"
for name in Newtonsoft.Json.6.0.8 NUnit.2.6.4; do
  [ ! -r "$nupkg/$name.nupkg" ] || set -- "$@" "$nupkg/$name.nupkg"
done
python3 - "$here" "$feed" "$work" "$@" <<'END'
import json, os, socket, subprocess, sys, time

here, feed, work, *packages = sys.argv[1:]
store = work + "/feed"
passed = failed = 0


def check(what, done):
    global passed, failed
    passed, failed = passed + bool(done), failed + (not done)
    if not done:
        print("failed:", what)


def run(*words):
    return subprocess.run(words, stdin=subprocess.DEVNULL, capture_output=True)


def free_port():
    with socket.socket() as taken:
        taken.bind(("127.0.0.1", 0))
        return taken.getsockname()[1]


def fetch(url):
    """The status, the type and the body of a document, by curl."""
    body = work + "/body"
    ran = run("curl", "-s", "-o", body, "-w", "%{http_code} %{content_type}", "--max-time", "10", "--path-as-is", url)
    status, _, kind = ran.stdout.decode().partition(" ")
    with open(body, "rb") as read:
        return status, kind, read.read()


def serves(base, url, kind):
    """Whether the server gives the very document that the program does."""
    status, found, body = fetch(url)
    held = run(feed, store, "get", "/" + url[len(base):])
    check(f"{url}: {status} {found}", status == "200" and found == kind and held.returncode == 0 and body == held.stdout)
    return body


port = free_port()
base = f"http://localhost:{port}/"
made = run(feed, store, "init", base)
check(f"init {base}: {made.stdout}", made.returncode == 0)
told = run(sys.executable, here + "/../packages.py", feed, store, *packages)
check(f"publish: {told.stdout}", told.returncode == 0)
for hive in ["content", "plain", "semver2"]:
    done = run(feed, store, "job", hive)
    check(f"job {hive}: {done.stdout}", done.stdout == f"done {hive} 1\n".encode())
index = run(feed, store, "get", "/v3/index.json")
check("the service index", index.returncode == 0)
with open(store + "/index.json", "wb") as write:
    write.write(index.stdout)

with open(here + "/../examples/nginx.conf") as read:
    text = read.read()
text = text.replace("/srv/feed", os.path.abspath(store)).replace("127.0.0.1:8080", f"127.0.0.1:{port}")
own = ["daemon off;", f"pid {work}/nginx.pid;", "error_log stderr;"]
temporary = [f"{name}_temp_path {work}/{name};" for name in ["client_body", "proxy", "fastcgi", "uwsgi", "scgi"]]
if os.getuid() == 0:
    own.insert(0, "user root;")
with open(work + "/nginx.conf", "w") as write:
    write.write("\n".join(own) + "\n" + text.replace("http {", "http {\n  " + "\n  ".join(temporary), 1))
server = subprocess.Popen(["nginx", "-p", work, "-c", work + "/nginx.conf"], stdin=subprocess.DEVNULL, stdout=subprocess.DEVNULL, stderr=subprocess.DEVNULL)
try:
    for turn in range(100):
        try:
            socket.create_connection(("127.0.0.1", port), 1).close()
            break
        except OSError:
            time.sleep(0.1)
    services = json.loads(serves(base, base + "v3/index.json", "application/json"))
    at = {resource["@type"]: resource["@id"] for resource in services["resources"]}
    catalog = json.loads(serves(base, at["Catalog/3.0.0"], "application/json"))
    ids = set()
    for page in catalog["items"]:
        for row in json.loads(serves(base, page["@id"], "application/json"))["items"]:
            leaf = json.loads(serves(base, row["@id"], "application/json"))
            ids.add(leaf["id"].lower())
    check(f"the ids of {len(packages)} packages: {sorted(ids)}", len(ids) == len(packages))
    contents = set()
    for hive in ["RegistrationsBaseUrl", "RegistrationsBaseUrl/3.6.0"]:
        for key in sorted(ids):
            registration = json.loads(serves(base, at[hive] + key + "/index.json", "application/json"))
            for page in registration["items"]:
                for leaf in page["items"]:
                    serves(base, leaf["@id"], "application/json")
                    contents.add(leaf["packageContent"])
    files = []
    for path in packages:
        with open(path, "rb") as read:
            files.append(read.read())
    for content in sorted(contents):
        files.remove(serves(base, content, "application/octet-stream"))
        folder, _, _ = content.rpartition("/")
        key = folder.split("/")[-2]
        serves(base, folder + "/" + key + ".nuspec", "application/xml")
        serves(base, at["PackageBaseAddress/3.0.0"] + key + "/index.json", "application/json")
    check(f"each package is served as it was published, {len(files)} are left", not files)
    with open(store + "/catalog/index.json.tmp", "w") as write:
        write.write("{}")
    for path in ["v3/catalog/staged/1/0.nupkg", "v3/catalog/index.json.tmp", "v3/registration/../s/hello.json", "v3/flat/cursor.json",
                 "v3/registration/cursor.json", "v3/catalog/data/01/0.json", "v3/flat/%2e%2e/%2e%2e/cursor.json", "catalog/index.json",
                 "v3/flat/hello/", "v3/registration-semver2/hello", "v3/autocomplete?q=a", "feed.lock"]:
        status, _, _ = fetch(base + path)
        check(f"{path} isn't served: {status}", status in ("400", "404"))
    ran = run("curl", "-s", "-o", work + "/body", "-w", "%{http_code}", "-d", "x", base + "v3/index.json")
    check(f"nothing is posted: {ran.stdout}", ran.stdout == b"405")
finally:
    server.terminate()
    server.wait(10)
print(f"{passed} passed, {failed} failed")
sys.exit(failed != 0)
END

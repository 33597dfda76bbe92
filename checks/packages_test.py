#!/usr/bin/env python3
"""Tests of packages.py: packages that it takes apart, those that it refuses, and what it hands to the program.

Use: python3 checks/packages_test.py
The program is one of this test's own, which keeps what it is given. The last line is 'N passed, M failed'; the status is 1
where M isn't 0.
"""
import io
import json
import os
import subprocess
import sys
import tempfile
import zipfile

TOP = os.path.join(os.path.dirname(os.path.abspath(__file__)), "..")
sys.path.insert(0, TOP)
import packages

HEAD = '<?xml version="1.0" encoding="utf-8"?>\n'
BARE = "<package><metadata><id>Foo</id><version>1.0.0</version></metadata></package>"
WHOLE = """<package xmlns="http://schemas.microsoft.com/packaging/2013/05/nuspec.xsd">
  <metadata minClientVersion="2.12">
    <id> Foo.Core </id>
    <version>1.0.0-RC</version>
    <title>Foo!</title>
    <authors>A. B, C "D"</authors>
    <owners>nobody asks</owners>
    <description><![CDATA[Café & <more>]]></description>
    <summary/>
    <releaseNotes>R.</releaseNotes>
    <iconUrl>http://i.test/i.png</iconUrl>
    <licenseUrl>http://l.test/l</licenseUrl>
    <projectUrl>http://p.test/</projectUrl>
    <requireLicenseAcceptance>false</requireLicenseAcceptance>
    <tags>a  b
      c</tags>
    <dependencies>
      <group targetFramework="net8.0">
        <dependency id="Bar" version="[1.0.0, 2.0.0)" exclude="Build"/>
        <dependency id="baz"/>
      </group>
      <group targetFramework="net6.0"/>
      <group><dependency id="Bar" version="1.0"/></group>
    </dependencies>
  </metadata>
  <files/>
</package>"""
METADATA = {
    "id": "Foo.Core", "version": "1.0.0-RC", "title": "Foo!", "authors": 'A. B, C "D"', "description": "Café & <more>",
    "releaseNotes": "R.", "iconUrl": "http://i.test/i.png", "licenseUrl": "http://l.test/l", "projectUrl": "http://p.test/",
    "minClientVersion": "2.12", "requireLicenseAcceptance": False, "tags": ["a", "b", "c"],
    "dependencyGroups": [
        {"targetFramework": "net8.0", "dependencies": [{"id": "Bar", "range": "[1.0.0, 2.0.0)"}, {"id": "baz"}]},
        {"targetFramework": "net6.0"},
        {"dependencies": [{"id": "Bar", "range": "1.0"}]},
    ],
}
FLAT = BARE.replace("</metadata>", '<dependencies><dependency id="Bar" version="1.0"/><dependency id="Baz"/></dependencies></metadata>')
PROGRAM = """#!/bin/sh
n=$(($(cat "$1/count" 2>/dev/null || echo 0) + 1))
echo $n >"$1/count"
feed=$1
shift
echo "$@" >"$feed/words$n"
cat >"$feed/body$n"
echo "answer $n"
exit $(cat "$feed/status$n" 2>/dev/null || echo 0)
"""

passed = failed = 0


def check(what, done):
    global passed, failed
    passed, failed = passed + bool(done), failed + (not done)
    if not done:
        print("failed:", what)


def package(folder, name, files):
    path = os.path.join(folder, name)
    with zipfile.ZipFile(path, "w", zipfile.ZIP_DEFLATED) as archive:
        for inner, data in files:
            archive.writestr(zipfile.ZipInfo(inner), data)
    return path


def refusal(path):
    try:
        packages.package_of(path)
    except packages.NoPackage as error:
        return str(error)
    return "none"


def run(*words):
    ran = subprocess.run([sys.executable, os.path.join(TOP, "packages.py"), *words],
                         stdin=subprocess.DEVNULL, capture_output=True, text=True)
    return ran.returncode, ran.stdout, ran.stderr


def body(folder, number):
    with open(f"{folder}/body{number}", "rb") as file:
        return file.read()


def manifests():
    check("all members", packages.metadata_of((HEAD + WHOLE).encode()) == METADATA)
    check("no members but two", packages.metadata_of(BARE.encode()) == {"id": "Foo", "version": "1.0.0"})
    check("a byte order mark", packages.metadata_of(b"\xef\xbb\xbf" + (HEAD + WHOLE).encode()) == METADATA)
    check("UTF-16", packages.metadata_of((HEAD.replace("utf-8", "utf-16") + WHOLE).encode("utf-16")) == METADATA)
    check("flat dependencies", packages.metadata_of(FLAT.encode())["dependencyGroups"]
          == [{"dependencies": [{"id": "Bar", "range": "1.0"}, {"id": "Baz"}]}])


def refusals(folder):
    def told(text, *files):
        check(text, text in refusal(package(folder, "bad.nupkg", files)))

    told("it has 0 manifests at its root", ("lib/Foo.dll", "x"))
    told("it has 0 manifests at its root", ("inner/Foo.nuspec", BARE))
    told("it has 2 manifests at its root", ("Foo.nuspec", BARE), ("foo.NUSPEC", BARE))
    told("a path that leaves the archive, ../Foo.dll", ("Foo.nuspec", BARE), ("../Foo.dll", "x"))
    told("a path that leaves the archive, lib\\..\\..\\Foo.dll", ("Foo.nuspec", BARE), ("lib\\..\\..\\Foo.dll", "x"))
    told("a path that leaves the archive, /etc/Foo.dll", ("Foo.nuspec", BARE), ("/etc/Foo.dll", "x"))
    told("the manifest is no XML document", ("Foo.nuspec", BARE[:-4]))
    told("the manifest is no XML document", ("Foo.nuspec", ""))
    told("the manifest has a document type", ("Foo.nuspec", '<!DOCTYPE p [<!ENTITY a "b">]>' + BARE))
    told("the manifest has no metadata", ("Foo.nuspec", "<package/>"))
    told("the manifest has no id", ("Foo.nuspec", BARE.replace("Foo", " ")))
    told("the manifest has no version", ("Foo.nuspec", BARE.replace("<version>1.0.0</version>", "")))
    told("a dependency has no id", ("Foo.nuspec", FLAT.replace('id="Baz"', "")))
    told("requireLicenseAcceptance is neither", ("Foo.nuspec", BARE.replace("</metadata>", "<requireLicenseAcceptance>yes</requireLicenseAcceptance></metadata>")))
    whole = package(folder, "whole.nupkg", [("Foo.nuspec", BARE), ("lib/Foo.dll", "x" * 1000)])
    data = packages.read(whole)
    for length in [0, 10, len(data) // 2, len(data) - 1]:
        with open(os.path.join(folder, "cut.nupkg"), "wb") as file:
            file.write(data[:length])
        check(f"an archive cut to {length} bytes", "no zip archive" in refusal(os.path.join(folder, "cut.nupkg")))


def programs(folder):
    program = os.path.join(folder, "program")
    with open(program, "w", encoding="ascii") as file:
        file.write(PROGRAM)
    os.chmod(program, 0o755)
    good = [package(folder, f"{at}.nupkg", [("Foo.nuspec", BARE.replace("Foo", f"Foo{at}")), ("x", "y")]) for at in range(65)]
    feed = os.path.join(folder, "feed")
    os.mkdir(feed)
    bad = package(folder, "none.nupkg", [("x", "y")])
    status, out, err = run(program, feed, good[0], bad)
    check("one bad package, nothing published", status == 2 and out == "" and bad in err and os.listdir(feed) == [])
    status, out, err = run(program, feed, good[0], folder + "/absent.nupkg")
    check("one absent package, nothing published", status == 2 and out == "" and "absent.nupkg" in err and os.listdir(feed) == [])
    status, out, err = run(program, feed, *good)
    check("65 packages are two commits", (status, out) == (0, "answer 1\nanswer 2\n"))
    want = b"".join(packages.package_of(path)[2] for path in good[:64])
    check("64 records in one body", body(feed, 1) == want and body(feed, 2) == packages.package_of(good[64])[2])
    meta = json.dumps({"id": "Foo0", "version": "1.0.0"}, separators=(",", ":")).encode()
    nuspec = BARE.replace("Foo", "Foo0").encode()
    first = b"%d %d %d\n" % (len(meta), len(nuspec), os.path.getsize(good[0])) + meta + nuspec + packages.read(good[0])
    check("a record", body(feed, 1).startswith(first))
    status, out, err = run(program, feed, "--unlisted", *good[:2])
    with open(f"{feed}/words4", encoding="ascii") as file:
        words = file.read()
    check("an unlisting follows", (status, out, words) == (0, "answer 3\nanswer 4\n", "unlist Foo0 1.0.0 Foo1 1.0.0\n"))
    with open(f"{feed}/status5", "w", encoding="ascii") as file:
        file.write("3")
    status, out, err = run(program, feed, *good)
    check("a refused commit ends it", (status, out) == (3, "answer 5\n"))
    by_hand = ["--id", "Bar", "--version", "2.0", "--nuspec", __file__]
    status, out, err = run(program, feed, *by_hand, good[0])
    check("by hand", (status, out) == (0, "answer 6\n") and body(feed, 6).startswith(b'%d %d %d\n{"id":"Bar","version":"2.0"}'
          % (28, os.path.getsize(__file__), os.path.getsize(good[0]))))
    check("by hand without a manifest", run(program, feed, *by_hand[:4], good[0])[0] == 2)
    status, out, err = run("--check", *good[:2])
    check("a check alone publishes nothing", (status, out, err) == (0, "", "") and not os.path.exists(f"{feed}/body7"))
    check("a check of a bad package", run("--check", good[0], bad)[0] == 2)
    check("two packages are cut at 64 MiB", [len(run) for run in packages.commits([("", "", bytes(40 << 20))] * 2)] == [1, 1])


manifests()
with tempfile.TemporaryDirectory() as work:
    refusals(work)
    programs(work)
print(f"{passed} passed, {failed} failed")
sys.exit(failed > 0)

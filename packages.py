#!/usr/bin/env python3
"""Publishes packages as NuGet's tools make them: `publish.sh` calls it once the program is built.

Use: packages.py PROGRAM FOLDER [--unlisted] PACKAGE.nupkg..
     packages.py PROGRAM FOLDER [--unlisted] --id ID --version VERSION --nuspec FILE PACKAGE.nupkg
     packages.py --check WORDS..   reads what the words behind FOLDER name, and publishes nothing

A package is a zip archive with one manifest, a file `<name>.nuspec`, at its root (Microsoft Learn, ".nuspec reference").
Each manifest is read into the metadata of a record, and what the manifest doesn't have isn't in the record. The second form
takes the id and the version from the words, and the manifest from a file, in place of all that.

All packages are read before the first is published: where one is no package, nothing is published. Up to 64 packages and 64 MiB
are one commit, and what is more goes into further commits. The program's answer to each is printed as it comes, and its status
is that of the first commit that wasn't done. With --unlisted the versions that a commit published are unlisted by the next
one.
"""
import json
import re
import subprocess
import sys
import zipfile
import zlib
from xml.parsers import expat

CHANGES, BYTES = 64, 64 << 20
MANIFEST_BYTES = 4 << 20
TEXTS = ["authors", "description", "iconUrl", "licenseUrl", "projectUrl", "releaseNotes", "summary", "title"]


class NoPackage(Exception):
    """Why a file is no package, or its manifest none."""


class Element:
    """An element of a manifest, by its name without a namespace: its attributes, its elements and its text."""

    def __init__(self, name, attributes):
        self.name, self.attributes, self.elements, self.text = name, attributes, [], ""

    def all(self, name):
        return [element for element in self.elements if element.name == name]

    def first(self, name):
        found = self.all(name)
        return found[0] if found else Element(name, {})


def local(name):
    return name.rpartition("}")[2]


def root_of(manifest):
    """The root element of a manifest. A document type is refused, since entities can be of any length."""
    top = Element("", {})
    open_elements = [top]
    parser = expat.ParserCreate(namespace_separator="}")

    def start(name, attributes):
        element = Element(local(name), {local(key): value for key, value in attributes.items()})
        open_elements[-1].elements.append(element)
        open_elements.append(element)

    def end(_name):
        open_elements.pop()

    def characters(text):
        open_elements[-1].text += text

    def refuse(*_words):
        raise NoPackage("the manifest has a document type")

    parser.StartElementHandler, parser.EndElementHandler = start, end
    parser.CharacterDataHandler, parser.StartDoctypeDeclHandler = characters, refuse
    try:
        parser.Parse(manifest, True)
    except expat.ExpatError as error:
        raise NoPackage(f"the manifest is no XML document: {error}") from error
    return top.elements[0]


def dependencies(elements):
    found = []
    for element in elements:
        if "id" not in element.attributes:
            raise NoPackage("a dependency has no id")
        dependency = {"id": element.attributes["id"]}
        if element.attributes.get("version"):
            dependency["range"] = element.attributes["version"]
        found.append(dependency)
    return found


def group(element):
    made = {}
    if element.attributes.get("targetFramework"):
        made["targetFramework"] = element.attributes["targetFramework"]
    if element.all("dependency"):
        made["dependencies"] = dependencies(element.all("dependency"))
    return made


def groups(element):
    """The dependency groups: those that are written, or one without a framework of the dependencies outside groups."""
    made = [group(inner) for inner in element.all("group")]
    flat = dependencies(element.all("dependency"))
    return made + [{"dependencies": flat}] if flat else made


def metadata_of(manifest):
    """The metadata that a manifest has, as a JSON object."""
    root = root_of(manifest)
    given = root.first("metadata")
    if root.name != "package" or not root.all("metadata"):
        raise NoPackage("the manifest has no metadata")
    made = {}
    for name in ["id", "version"]:
        made[name] = given.first(name).text.strip()
        if not made[name]:
            raise NoPackage(f"the manifest has no {name}")
    for name in TEXTS:
        if given.first(name).text.strip():
            made[name] = given.first(name).text.strip()
    if given.attributes.get("minClientVersion"):
        made["minClientVersion"] = given.attributes["minClientVersion"]
    accepted = given.first("requireLicenseAcceptance").text.strip().lower()
    if accepted:
        if accepted not in ["true", "false"]:
            raise NoPackage("requireLicenseAcceptance is neither true nor false")
        made["requireLicenseAcceptance"] = accepted == "true"
    if given.first("tags").text.split():
        made["tags"] = given.first("tags").text.split()
    if groups(given.first("dependencies")):
        made["dependencyGroups"] = groups(given.first("dependencies"))
    return made


def leaves_archive(name):
    parts = re.split(r"[/\\]", name)
    return ".." in parts or parts[0] == "" or ":" in parts[0]


def manifest_of(path):
    """The bytes of the one manifest at the root of a package."""
    try:
        with zipfile.ZipFile(path) as archive:
            infos = archive.infolist()
            for info in infos:
                if leaves_archive(info.filename):
                    raise NoPackage(f"it has a path that leaves the archive, {info.filename}")
            found = [info for info in infos if "/" not in info.filename and info.filename.lower().endswith(".nuspec")]
            if len(found) != 1:
                raise NoPackage(f"it has {len(found)} manifests at its root, and one is wanted")
            if found[0].file_size > MANIFEST_BYTES:
                raise NoPackage("its manifest is longer than 4 MiB")
            return archive.read(found[0])
    except (zipfile.BadZipFile, zlib.error, EOFError, NotImplementedError, RuntimeError) as error:
        raise NoPackage(f"it is no zip archive that can be read: {error}") from error


def record(metadata, manifest, package):
    meta = json.dumps(metadata, ensure_ascii=False, separators=(",", ":")).encode()
    return b"%d %d %d\n" % (len(meta), len(manifest), len(package)) + meta + manifest + package


def read(path):
    with open(path, "rb") as file:
        return file.read()


def package_of(path):
    """The id, the version and the record of a package file."""
    manifest = manifest_of(path)
    metadata = metadata_of(manifest)
    return metadata["id"], metadata["version"], record(metadata, manifest, read(path))


def commits(packages):
    """The packages in runs, each of which a commit takes."""
    run, length = [], 0
    for package in packages:
        if run and (len(run) == CHANGES or length + len(package[2]) > BYTES):
            yield run
            run, length = [], 0
        run.append(package)
        length += len(package[2])
    if run:
        yield run


def publish(program, folder, packages, unlisted):
    for run in commits(packages):
        ran = subprocess.run([program, folder, "publish"], input=b"".join(one[2] for one in run))
        if ran.returncode == 0 and unlisted:
            pairs = [word for one in run for word in one[:2]]
            ran = subprocess.run([program, folder, "unlist", *pairs], stdin=subprocess.DEVNULL)
        if ran.returncode != 0:
            return ran.returncode
    return 0


def by_hand(words):
    """The record whose id, version and manifest stand in the words."""
    given = dict(zip(words[0:6:2], words[1:6:2]))
    if len(words) != 7 or set(given) != {"--id", "--version", "--nuspec"}:
        raise NoPackage("--id, --version and --nuspec go together, with one package")
    metadata = {"id": given["--id"], "version": given["--version"]}
    return metadata["id"], metadata["version"], record(metadata, read(given["--nuspec"]), read(words[6]))


def packages_of(words):
    """The packages that the words name."""
    if words and words[0].startswith("--"):
        return [by_hand(words)]
    packages = []
    for path in words:
        try:
            packages.append(package_of(path))
        except NoPackage as error:
            raise NoPackage(f"{path}: {error}") from error
    return packages


def main(words):
    check = words[:1] == ["--check"]
    named = words[1:] if check else words[2:]
    unlisted = named[:1] == ["--unlisted"]
    named = named[unlisted:]
    if not named:
        print(__doc__.split("\n\n")[1], file=sys.stderr)
        return 2
    try:
        packages = packages_of(named)
    except NoPackage as error:
        print(error, file=sys.stderr)
        return 2
    except OSError as error:
        print(f"{error.filename}: {error.strerror}", file=sys.stderr)
        return 2
    return 0 if check else publish(words[0], words[1], packages, unlisted)


if __name__ == "__main__":
    sys.exit(main(sys.argv[1:]))

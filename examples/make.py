#!/usr/bin/env python3
"""Makes Hello.1.0.0.nupkg of Hello.nuspec, the same bytes each time. A package is a zip archive with its manifest.

Use: python3 examples/make.py
"""

import os
import zipfile

HERE = os.path.dirname(os.path.abspath(__file__))


def main():
    with open(os.path.join(HERE, "Hello.nuspec"), "rb") as manifest:
        files = {"Hello.nuspec": manifest.read(), "content/hello.txt": b"hello\n"}
    with zipfile.ZipFile(os.path.join(HERE, "Hello.1.0.0.nupkg"), "w", zipfile.ZIP_STORED) as package:
        for name, text in files.items():
            package.writestr(zipfile.ZipInfo(name, (2024, 1, 1, 0, 0, 0)), text)


main()

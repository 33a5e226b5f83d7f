#!/usr/bin/env python3
"""shown.py FOLDER: the characters that a terminal would obey.

FOLDER becomes a bag with files that no manifest lists, of which each has another character in its name: all below
U+2100, and some beyond. Prints what a terminal is shown of a check of it, by section 14 of FORMAT.md.
"""
import os
import sys

OBEYED = {*range(0x00, 0x20), *range(0x7F, 0xA0), 0x061C, 0x200E, 0x200F, *range(0x2028, 0x202F),
    *range(0x2066, 0x206A)}
ALL = [*range(0x01, 0x2100), 0x2800, 0xD7FF, 0xE000, 0xFEFF, 0xFFFD, 0x10000, 0x1F600, 0xE0001, 0x10FFFF]


def spelled(path):
    """[4]"""
    return path.replace("%", "%25").replace("\n", "%0A").replace("\r", "%0D")


def shown(line):
    """[14]"""
    return "".join("".join(f"%{octet:02X}" for octet in c.encode()) if ord(c) in OBEYED else c for c in line)


def main():
    folder = sys.argv[1]
    os.makedirs(os.path.join(folder, "data"))
    declaration = "BagIt-Version: 1.0\nTag-File-Character-Encoding: UTF-8\n"
    for name, text in ("bagit.txt", declaration), ("manifest-md5.txt", ""):
        with open(os.path.join(folder, name), "x", encoding="utf-8") as file:
            file.write(text)
    paths = [f"data/{chr(c)}x{chr(c)}" for c in ALL if chr(c) not in "/"]
    for path in paths:
        open(os.path.join(folder, path), "x", encoding="utf-8").close()
    for path in sorted(paths, key=str.encode):
        print(shown("manifest-md5.txt: unlisted: " + spelled(path)))
    print("not complete")


main()

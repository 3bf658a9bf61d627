# What tools/unicode_tables and tools/ucd_data share: the lines of a file of the Unicode Character Database, and writing or comparing what is made of them.
import os
import sys

VERSION = "15.0.0"  # of unicode-xid 0.2.4, the release that builds the oracle
FOLDER = "/usr/share/unicode"  # of Debian's package unicode-data
ROOT = os.path.dirname(os.path.dirname(os.path.abspath(__file__)))


def database(folder, name):
    """The lines of the file NAME.txt, which must say that it is of our version."""
    path = os.path.join(folder, name + ".txt")
    try:
        with open(path, encoding="utf-8", newline="\n") as file:
            lines = file.read().splitlines(keepends=True)
    except FileNotFoundError:
        sys.exit(f"{path} is missing: Debian's package unicode-data has it, or name a folder that does")
    told, wanted = lines[0].strip(), f"# {name}-{VERSION}.txt"
    if told != wanted:
        sys.exit(f"{path} starts with '{told}', and not with '{wanted}'")
    return lines


def with_property(lines, name):
    """The lines, as they are, that give code points the property NAME."""
    return [line for line in lines if line.split("#")[0].partition(";")[2].strip() == name]


def finish(made):
    """Writes each file of MADE, by its path from the root; with --check says instead which differs, or that none does."""
    differs = False
    for path, text in made.items():
        whole = os.path.join(ROOT, path)
        if "--check" in sys.argv[1:]:
            try:
                with open(whole, encoding="utf-8", newline="\n") as file:
                    same = file.read() == text
            except FileNotFoundError:
                same = False
            if not same:
                print(f"{path} differs from what {os.path.basename(sys.argv[0])} writes")
                differs = True
        else:
            os.makedirs(os.path.dirname(whole), exist_ok=True)
            with open(whole, "w", encoding="utf-8", newline="\n") as file:
                file.write(text)
    if "--check" in sys.argv[1:] and not differs:
        print(f"{len(made)} files are what {os.path.basename(sys.argv[0])} writes")
    sys.exit(1 if differs else 0)


def folder():
    """The folder named on the command line, or Debian's."""
    words = [word for word in sys.argv[1:] if word != "--check"]
    if len(words) > 1 or any(word.startswith("-") for word in words):
        sys.exit(f"use: {os.path.basename(sys.argv[0])} [--check] [FOLDER]   (FOLDER has Unicode's files; else {FOLDER})")
    return words[0] if words else FOLDER

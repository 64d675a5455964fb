"""What the tools here share: the program, a volume of one sample, and one run of a command."""
import os
import subprocess
import sys
import tempfile

HERE = os.path.dirname(os.path.abspath(__file__))
PROGRAM = os.path.abspath(
    sys.argv[1] if len(sys.argv) > 1 else os.path.join(HERE, "../crates/stuff_cli/out/stuff_cli"))

# How each status says on standard error what went wrong; 0 says nothing.
LINES = {0: "", 2: "stuff: bad words", 3: ("stuff: bad header", "stuff: header"), 4: "stuff: unsupported", 5: "stuff: too large",
         6: "stuff: truncated", 7: "stuff: read fault", 8: "stuff: write fault", 9: "stuff: no memory"}


def volume(sizes, data, kind="MET_UCHAR"):
    """The bytes of a .mha file."""
    head = ("ObjectType = Image\nNDims = 3\nBinaryData = True\nBinaryDataByteOrderMSB = False\n"
            "DimSize = %d %d %d\nElementType = %s\nElementDataFile = LOCAL\n" % (*sizes, kind))
    return head.encode() + data


def shim(folder):
    """Builds refuse.c, which breaks calls of the program, with the C compiler."""
    made = os.path.join(folder, "refuse.so")
    subprocess.run(["cc", "-O1", "-shared", "-fPIC", "-o", made, os.path.join(HERE, "refuse.c"), "-ldl"], check=True)
    return made


def run(words, folder, before=None, seconds=60, **more):
    """Runs the program in a folder; its status, what it wrote, and what it said."""
    done = subprocess.run([PROGRAM, *words], cwd=folder, stdout=more.pop("stdout", subprocess.PIPE),
                          stderr=subprocess.PIPE, timeout=seconds, env={**os.environ, **(before or {})}, **more)
    return done.returncode, done.stdout or b"", done.stderr.decode("latin-1")


def read(folder, name):
    """A file's bytes, or None where it isn't there."""
    try:
        with open(os.path.join(folder, name), "rb") as file:
            return file.read()
    except FileNotFoundError:
        return None


def left(folder, name, whole=None):
    """How a file stands: absent, empty, whole, a first part of the whole, or otherwise."""
    text = read(folder, name)
    if text is None:
        return "absent"
    if whole is not None and text == whole:
        return "whole"
    if text == b"":
        return "empty"
    if whole is not None and whole.startswith(text):
        return "part"
    return "%d bytes" % len(text)


def is_fit(status, said):
    """Whether a status is one of the table, with its line and no other."""
    return status in LINES and (said.startswith(LINES[status]) and said.count("\n") == 1 if status else said == "")


def folder():
    return tempfile.TemporaryDirectory(prefix="stuff-")

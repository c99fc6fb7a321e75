"""What the tools in Python have in common: help, the version, and one line of plain characters for
a fault.
"""
import os
import subprocess
import sys

TOP = os.path.dirname(os.path.dirname(os.path.realpath(__file__)))


def plain(text):
    """Returns the text with `?` for each character that a terminal may obey, or can't show."""
    return "".join(it if it.isprintable() else "?" for it in text)


def program():
    """Returns the path of the program: that of $IVSHM, of the repository, or of the installation."""
    installed = os.path.join(os.path.dirname(os.path.dirname(TOP)), "bin", "ivshm")
    own = os.path.join(TOP, "ivshm")
    return os.environ.get("IVSHM") or (own if os.path.exists(own) else installed)


def line_of(name, fault):
    """Returns the line for a fault."""
    if isinstance(fault, OSError):
        return f"{name}: {fault.filename or 'input or output'}: {fault.strerror or fault}"
    if isinstance(fault, MemoryError):
        return f"{name}: memory ran out"
    if isinstance(fault, subprocess.CalledProcessError):
        return f"{name}: {fault.cmd[0]} ended with {fault.returncode}"
    return f"{name}: {type(fault).__name__}: {fault}"


def answer(words, text, main):
    """What the tool returns for its words."""
    if words in (["--help"], ["-h"]):
        print(text.strip())
        return 0
    if words == ["--version"]:
        return subprocess.call([f"{TOP}/tools/version"])
    return main(words)


def run(name, text, main):
    """Runs a tool on its words, and ends with what it returns. `text` is its help."""
    words = sys.argv[1:]
    # what was read is written as it was, in any locale
    for stream in (sys.stdin, sys.stdout):
        if stream is not None:
            stream.reconfigure(encoding="utf-8", errors="surrogateescape")
    try:
        status = answer(words, text, main)
        sys.stdout.flush()
    except SystemExit as end:
        if not isinstance(end.code, str):
            raise
        status, line = 1, end.code
    except KeyboardInterrupt:
        status, line = 130, f"{name}: interrupted"
    except BrokenPipeError:
        status, line = 1, f"{name}: the reader of the output is gone"
    except Exception as fault:  # pylint: disable=broad-except
        status, line = 1, line_of(name, fault)
    else:
        sys.exit(status)
    try:
        sys.stdout.flush()
    except OSError:
        pass
    print(plain(line), file=sys.stderr, flush=True)
    os._exit(status)  # nothing more is written

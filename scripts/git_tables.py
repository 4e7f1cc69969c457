"""What the scripts share that ask git for tables of answers.

A script calls `tables(path, heading, make)`: the command line of each is then

    scripts/ask-git-..            prints the table
    scripts/ask-git-.. --write    writes it into the repository, whole or not at all
    scripts/ask-git-.. --check    compares it with the one there, where that was made by the same version of git

It ends with 1 where the two differ, and with 2 where git fails or answers as no case expects.
"""
import argparse
import contextlib
import io
import os
import re
import subprocess
import sys
import textwrap

from common import HERE, die, run_main, write_whole


def run(words, cwd, stdin=None):
    """What a command answers, with no configuration and no variable of the caller's but where commands are found."""
    env = {"PATH": os.environ.get("PATH", os.defpath), "LC_ALL": "C", "GIT_CONFIG_NOSYSTEM": "1", "HOME": cwd, "GIT_AUTHOR_NAME": "a",
           "GIT_AUTHOR_EMAIL": "a", "GIT_COMMITTER_NAME": "a", "GIT_COMMITTER_EMAIL": "a"}
    return subprocess.run(words, input=stdin, stdout=subprocess.PIPE, stderr=subprocess.PIPE, cwd=cwd, env=env)


def git(top, *words, stdin=None, may=(0,)):
    """What git prints in a folder; the script ends where its status is another than it may be."""
    done = run(["git", *words], top, stdin)
    if done.returncode not in may:
        die("git %s ended with %d: %s" % (" ".join(map(str, words)), done.returncode, done.stderr.decode(errors="replace").strip()))
    return done.stdout


def text(data):
    """The inside of a byte string literal."""
    names = {9: "\\t", 13: "\\r", 34: '\\"', 92: "\\\\"}
    return "".join(names[b] if b in names else chr(b) if 32 <= b < 127 else "\\x%02x" % b for b in data)


def print_table(name, doc, rows):
    """A constant whose text has one row a line."""
    print("\n/// %s\npub const %s: &[u8] = b\"\\" % (doc, name))
    print("\n".join(row + "\\n\\" for row in rows) + "\n\";")


def reasons(all_reasons):
    """The reasons of differences, as lines of a comment."""
    return "\n///" + "".join("\n/// - " + reason for reason in dict.fromkeys(all_reasons))


def need_difference(git, own, about):
    """Ends the script where git answers as the definitions do: the row is none of a table of differences."""
    if git == own:
        die("no difference: %r of %r" % (own, about))


def paragraph(mark, lines):
    """The lines of a paragraph of a doc comment, of 100 columns at most."""
    hang = "  " if lines[0].startswith("- ") else ""
    return textwrap.wrap(" ".join(lines), 100, initial_indent=mark + " ", subsequent_indent=mark + " " + hang, break_long_words=False, break_on_hyphens=False)


def wrapped(table):
    """The same table, its doc comments at 100 columns at most, but for its first line, which `--check` looks for the version in."""
    first, *rest = table.split("\n")
    done, mark, lines = [first], "", []
    for line in [*rest, None]:
        found = re.match(r"(//[!/]) +(.+)", line or "")
        if lines and (not found or found[1] != mark or found[2].startswith("- ")):
            done += paragraph(mark, lines)
            lines = []
        if found:
            mark, lines = found[1], [*lines, found[2]]
        elif line is not None:
            done.append(line)
    return "\n".join(done)


def git_version():
    return git(HERE, "version").decode().strip()


def made(heading, make):
    """The whole text of a table."""
    out = io.StringIO()
    with contextlib.redirect_stdout(out):
        print(heading % git_version())
        try:
            make()
        except (AssertionError, ValueError, KeyError, AttributeError) as error:
            die("git answered as no case expects: %r" % error)
    return wrapped(out.getvalue())


def tables(path, doc, heading, make):
    """Does what the command line asks for; `path` is that of the table in the repository."""
    parser = argparse.ArgumentParser(description=doc, formatter_class=argparse.RawDescriptionHelpFormatter)
    ways = parser.add_mutually_exclusive_group()
    ways.add_argument("--write", action="store_true", help="write the table into the repository, whole or not at all")
    ways.add_argument("--check", action="store_true",
                      help="compare it with the one there, where that was made by the same version of git: 1 where they differ")
    words, path = parser.parse_args(), os.path.join(HERE, path)
    run_main(lambda: table(words, path, heading, make))


def table(words, path, heading, make):
    """Prints, writes or compares one table."""
    name = os.path.basename(path)
    if not words.write and not words.check:
        print(made(heading, make), end="")
        return
    if words.write:
        write_whole(path, made(heading, make))
        return
    with open(path) as file:
        old = file.read()
    first = old.split("\n", 1)[0]
    if "git version " not in first:
        sys.exit("%s: its first line tells no version of git, so nothing would be compared" % name)
    if git_version() not in first:
        print("%s: not compared, since it was made by another version than %s" % (name, git_version()))
        return
    if made(heading, make) != old:
        sys.exit("%s: git answers otherwise than the table says" % name)
    else:
        print("%s: as git answers" % name)

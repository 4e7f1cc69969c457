"""Work trees on the disk, made by commands, and the steps by which tests make them in memory."""
import hashlib
import os
import stat
import subprocess

from common import die
from git_tables import text

# Where in a repository nothing is that the reader looks at.
LEFT_OUT = ("objects", "refs", "hooks", "logs", "branches", "modules")


def environment(top):
    return {"PATH": os.environ.get("PATH", os.defpath), "LC_ALL": "C", "HOME": top + "/h", "GIT_CONFIG_SYSTEM": top + "/etc", "GIT_AUTHOR_NAME": "a",
            "GIT_AUTHOR_EMAIL": "a", "GIT_COMMITTER_NAME": "a", "GIT_COMMITTER_EMAIL": "a", "GIT_AUTHOR_DATE": "1700000000 +0000",
            "GIT_COMMITTER_DATE": "1700000000 +0000", "TMPDIR": "/tmp"}


def said(words, cwd, top, may=(0,)):
    done = subprocess.run(words, cwd=cwd, env=environment(top), stdout=subprocess.PIPE, stderr=subprocess.PIPE)
    if done.returncode not in may:
        die("%r ended with %d: %s" % (words, done.returncode, done.stderr.decode(errors="replace")))
    return done


def made_in(top, commands):
    """Makes the work tree."""
    os.makedirs(top + "/h")
    said(["git", "init", "-q", "-b", "main", "r"], top, top)
    os.remove(top + "/r/.git/info/exclude")
    said(["sh", "-ec", commands], top + "/r", top)


def without_stat(data):
    """An index file without what it says of times, numbers and sizes, which differ each time."""
    bytes_, version, count, at = bytearray(data[:-20]), data[7], int.from_bytes(data[8:12], "big"), 12
    for _ in range(count):
        bytes_[at:at + 24] = bytes(24)
        bytes_[at + 28:at + 40] = bytes(12)
        name = at + 62 + (2 if bytes_[at + 60] & 0x40 else 0)
        if version == 4:
            while bytes_[name] & 0x80:
                name += 1
            at = bytes_.index(0, name + 1) + 1
        else:
            at += (bytes_.index(0, name) - at) // 8 * 8 + 8
    return bytes(bytes_) + hashlib.sha1(bytes_).digest()


def escaped(data, top):
    """Bytes of a file, with `$` in the place of each LF where they are a text, else in hexadecimal digits."""
    data = data.replace(top.encode(), b"/w")
    plain = all(b in (9, 10) or 32 <= b < 127 for b in data) and not any(b in data for b in b"$;^")
    return ("f", text(data).replace("\\x0a", "$")) if plain else ("x", data.hex())


def spelled(name):
    """A name as it stands in a byte string; none of the bytes that part the steps is in it."""
    data = os.fsencode(name)
    if any(b in data for b in b"$;^=\n"):
        die("a name has a byte that parts: %r" % name)
    return text(data)


def steps(top):
    """The files of a tree, and of its repositories what the reader looks at."""
    found = []
    for folder, names, files in os.walk(top):
        names.sort()
        below = "/w" + spelled(folder[len(top):])
        if os.path.exists(folder + "/HEAD"):
            found += ["d %s/%s" % (below, name) for name in ("objects", "refs") if os.path.isdir(folder + "/" + name)]
            names[:] = [name for name in names if name not in LEFT_OUT or name == "modules"]
            files = [name for name in files if name in ("HEAD", "index", "config", "config.worktree", "commondir", "gitdir")]
        elif not names and not files:
            found.append("d " + below)
        for name in [n for n in names if os.path.islink(folder + "/" + n)] + sorted(files):
            path, name = folder + "/" + name, spelled(name)
            if stat.S_ISFIFO(os.lstat(path).st_mode):
                found.append("p %s/%s" % (below, name))
            elif os.path.islink(path):
                found.append("l %s/%s=%s" % (below, name, os.readlink(path)))
            else:
                with open(path, "rb") as file:
                    data = file.read()
                what, inside = escaped(without_stat(data) if name == "index" else data, top)
                found.append("%s %s/%s=%s" % (what, below, name, inside))
    return ";".join(found)

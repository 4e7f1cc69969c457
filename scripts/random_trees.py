"""Git work trees made at random, each by a number of its own, for the scripts that compare answers in them."""
import os
import random
import subprocess

from common import HERE, die

KINDS = ["plain", "subdirectory", "linked", "submodule", "inside-submodule", "separate", "core.worktree", "include", "sparse", "excludes", "version-4"]
NAMES = ["a", "b", "c.o", "d-e", "f g", "été", "x\\y", "t\tt"]
RULES = ["*.o", "/a", "b/", "d-e", "!c.o", "f g/*", "!/f g/a", "**/b", "$b", "a/b"]
# Rules outside the work tree that match every name, that of the top too if it is asked about.
RULES_OF_STARS = ["*", "*/", "**", "**/  ", "!*", "!*/", "***"]

ENVIRONMENT = {}


def run(words, where, **more):
    """What a command ends with and writes."""
    given = {} if "input" in more else {"stdin": subprocess.DEVNULL}
    return subprocess.run(words, cwd=where, env=ENVIRONMENT, stdout=subprocess.PIPE, stderr=subprocess.PIPE, **given, **more)


def git(where, *words):
    """What git writes; a git that fails ends the script."""
    done = run(["git", *words], where)
    if done.returncode:
        die("git %s in %s: %s" % (" ".join(words), where, done.stderr.decode(errors="replace").strip()))
    return done.stdout


def write(path, text):
    os.makedirs(os.path.dirname(path), exist_ok=True)
    with open(path, "w") as file:
        file.write(text)


class Tree:
    """A work tree, made by one number."""

    def __init__(self, folder, number):
        self.number, self.kind = number, KINDS[number % len(KINDS)]
        self.random = random.Random(number)
        self.folder = folder
        self.root = os.path.join(folder, "tree")
        self.home = os.path.join(folder, "home")
        os.makedirs(self.home)
        ENVIRONMENT["HOME"] = self.home
        self.make()
        self.where = self.root
        if self.kind == "inside-submodule":
            self.where = self.root = os.path.join(self.root, "lib")
        directories = sorted(self.directories())
        if self.kind == "subdirectory" or (directories and self.random.random() < 0.3):
            self.where = os.path.join(self.root, self.random.choice(directories)) if directories else self.root

    def make(self):
        main = os.path.join(self.folder, "main")
        if self.kind == "linked":
            git(self.folder, "init", "-q", main)
            git(main, "commit", "-q", "--allow-empty", "-m", "one")
            git(main, "worktree", "add", "-q", self.root)
        elif self.kind == "separate":
            git(self.folder, "init", "-q", "--separate-git-dir", main + ".git", self.root)
        elif self.kind == "core.worktree":
            git(self.folder, "init", "-q", main)
            self.root = os.path.join(main, "sub")
            os.makedirs(self.root)
            git(main, "config", "core.worktree", "../sub")
        else:
            git(self.folder, "init", "-q", self.root)
        self.fill(self.root, 3)
        self.rules()
        self.track()
        self.special()

    def fill(self, directory, levels):
        """Files, links and directories."""
        for name in NAMES:
            path, kind = os.path.join(directory, name), self.random.choice(["file", "file", "directory", "directory", "link", "no", "no"])
            if kind == "file":
                write(path, self.random.choice(["", "one\n", "two\n"]))
            elif kind == "link":
                os.symlink(self.random.choice([".", "nowhere", "a" if name != "a" else "."]), path)
            elif kind == "directory":
                os.makedirs(path)
                if levels:
                    self.fill(path, levels - 1)
        if levels < 3 and self.kind != "sparse" and self.random.random() < 0.05:
            git(directory, "init", "-q", *self.random.choice([[], ["--bare"]]), "nested")
            if not os.path.exists(os.path.join(directory, "nested", "HEAD")):
                write(os.path.join(directory, "nested", "file"), "one\n")

    def directories(self):
        """The directories that a command may be called in: below no other repository."""
        found = []
        for directory, names, _ in os.walk(self.root):
            names[:] = [name for name in names if name not in (".git", "nested", "lib") and not os.path.islink(os.path.join(directory, name))]
            found += [os.path.relpath(os.path.join(directory, name), self.root) for name in names]
        return found

    def some_rules(self, more=()):
        return "".join(rule + "\n" for rule in self.random.sample([*RULES, *more], self.random.randrange(4)))

    def rules(self):
        for directory in [""] + self.directories():
            if self.random.random() < (0.8 if not directory else 0.1):
                write(os.path.join(self.root, directory, ".gitignore"), self.some_rules())

    def track(self):
        for directory in ["."] + self.directories():
            for name in sorted(os.listdir(os.path.join(self.root, directory))):
                path = os.path.join(directory, name)
                if os.path.isfile(os.path.join(self.root, path)) and not os.path.islink(os.path.join(self.root, path)) and self.random.random() < 0.4:
                    git(self.root, "add", "-f", "--", path)
        listed = [path.decode() for path in git(self.root, "ls-files", "-z").split(b"\0") if path]
        for path in listed:
            chance = self.random.random()
            if chance < 0.08:
                os.remove(os.path.join(self.root, path))
            elif chance < 0.16:
                write(os.path.join(self.root, path), "three\n")
            elif chance < 0.2:
                git(self.root, "update-index", "--assume-unchanged", "--", path)

    def special(self):
        if self.kind in ("submodule", "inside-submodule"):
            other = os.path.join(self.folder, "other")
            git(self.folder, "init", "-q", other)
            write(os.path.join(other, "a"), "one\n")
            write(os.path.join(other, "d", "b"), "one\n")
            git(other, "add", "-A")
            git(other, "commit", "-q", "-m", "one")
            git(self.root, "-c", "protocol.file.allow=always", "submodule", "--quiet", "add", other, "lib")
            write(os.path.join(self.root, "lib", "new"), "one\n")
            write(os.path.join(self.root, "lib", "new.o"), "one\n")
            write(os.path.join(self.root, "lib", ".gitignore"), self.some_rules())
            for _ in range(self.random.randrange(3)):
                git(self.root, "config", "submodule.lib." + self.random.choice(["update", "active"]), self.random.choice(["true", "false"]))
            if self.random.random() < 0.3:
                git(self.root, "config", "submodule.lib.update", self.random.choice(["rebase", "merge", "none", "!echo a"]))
            else:
                run(["git", "config", "--unset", "submodule.lib.update"], self.root)
        elif self.kind == "include":
            write(os.path.join(self.home, "rules"), self.some_rules(RULES_OF_STARS))
            write(os.path.join(self.home, "more"), "[core]\n\texcludesFile = ~/rules\n\tignoreCase = %s\n" % self.random.choice(["true", "false"]))
            write(os.path.join(self.home, ".gitconfig"), "[include]\n\tpath = more\n")
            write(os.path.join(self.folder, "own"), "[core]\n\tignoreCase = %s\n" % self.random.choice(["true", "false"]))
            git(self.root, "config", self.random.choice(["include.path", "includeIf.gitdir:%s/.path" % self.root, "includeIf.gitdir:/nowhere/.path"]), os.path.join(self.folder, "own"))
        elif self.kind == "sparse":
            git(self.root, "add", "-A", "--", ".")
            git(self.root, "commit", "-q", "-m", "one")
            kept = [path for path in sorted(self.directories()) if "\\" not in path and "\t" not in path][:1]
            git(self.root, "sparse-checkout", "set", *(["--cone", *kept] if kept else ["--no-cone", "/a", "*.o"]))
            for name in ("new", "new.o"):
                write(os.path.join(self.root, name), "one\n")
        elif self.kind == "excludes":
            write(os.path.join(self.home, ".config", "git", "ignore"), self.some_rules(RULES_OF_STARS))
            write(os.path.join(self.root, ".git", "info", "exclude"), self.some_rules(RULES_OF_STARS))
        elif self.kind == "version-4":
            git(self.root, "update-index", "--force-write-index", "--index-version", "4")

    def rules_file(self):
        """A file of rules outside the work tree, made anew."""
        path = os.path.join(self.folder, "patterns")
        write(path, self.some_rules(RULES_OF_STARS))
        return path

    def prefix(self):
        """The path of the current directory below the top, with a slash at its end; empty at the top."""
        path = os.path.relpath(self.where, self.root)
        return "" if path == "." else path + "/"

    def specs(self):
        """Path specs from the current directory, and the same from the top."""
        made = []
        for _ in range(self.random.choice([0, 0, 1, 2])):
            path = self.random.choice(["a", "b", "d-e", "c.o", "f g", "a/b", "été"])
            mark, own = self.random.choice([("", True), (":(exclude)", True), (":(top)", False), (":(literal)", True), (":(icase)", True)])
            made.append((mark + path, mark + (self.prefix() if own else "") + path))
        return made


def surroundings():
    """The environment in which everything is asked: nothing of the user's, and nothing that points git elsewhere."""
    kept = {name: value for name, value in os.environ.items() if not name.startswith("GIT_") and name != "XDG_CONFIG_HOME"}
    own = {"GIT_CONFIG_NOSYSTEM": "1", "LC_ALL": "C.UTF-8"}
    for name in ("AUTHOR", "COMMITTER"):
        own["GIT_%s_NAME" % name], own["GIT_%s_EMAIL" % name] = "a", "a@a"
    return {**kept, **own}


def built(given, name):
    """The program that is given, or the one that scripts/program builds and keeps."""
    if given:
        return os.path.realpath(given)
    return subprocess.run([os.path.join(HERE, "scripts", "program"), name], check=True, stdout=subprocess.PIPE, text=True).stdout.strip()

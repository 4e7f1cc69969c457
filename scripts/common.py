"""What the scripts in Python share."""
import os
import subprocess
import sys

HERE = os.path.dirname(os.path.dirname(os.path.realpath(__file__)))


def die(why):
    """Says why the script ends, and ends it with 2."""
    print("%s: %s" % (os.path.basename(sys.argv[0]), why), file=sys.stderr)
    sys.exit(2)


def drop_output():
    """What was printed and not taken is not tried once more at the end, where the status would be another."""
    null = os.open(os.devnull, os.O_WRONLY)
    os.dup2(null, sys.stdout.fileno())
    os.close(null)


def run_main(main):
    """Runs a script; where something that it calls or opens fails, or what it prints is not taken, it ends with 2 and a word."""
    try:
        if sys.stdout is None:
            die("standard output is closed")
        try:
            main()
        finally:
            sys.stdout.flush()
    except subprocess.CalledProcessError as error:
        die("this ended with %d: %s" % (error.returncode, " ".join(map(str, error.cmd))))
    except OSError as error:
        drop_output()
        die(error)
    except KeyboardInterrupt:
        sys.exit(130)


def can_write(path):
    """Ends the script where a file cannot be written that is to be written at its end."""
    made = not os.path.lexists(path)
    open(path, "a").close()
    if made:
        os.remove(path)


def write_whole(path, text):
    """Writes a file whole or not at all."""
    with open(path + ".new", "w") as file:
        file.write(text)
    os.replace(path + ".new", path)

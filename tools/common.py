"""What the scripts in Python share: the words of a command line, help, and signals."""

import os
import signal
import subprocess
import sys


def arguments(text, least, most):
    """The words of the command line, as many as the script takes. `text` says what the script does, and is the help."""
    given = sys.argv[1:]
    if given[:1] == ["--help"]:
        print(text)
        sys.exit()
    unknown = [it for it in given[:most] if it.startswith("-")] + given[most:]
    if unknown:
        reject(f"unknown argument '{unknown[0]}'")
    if len(given) < least:
        reject("an argument is missing")
    end_what_runs()
    return given


def options(known):
    """The values of options, which are taken out of the command line. `known` has what each is else; a number stays one."""
    found = dict(known)
    for name, usual in known.items():
        if name in sys.argv:
            at = sys.argv.index(name)
            value = "".join(sys.argv[at + 1 : at + 2])
            is_number = isinstance(usual, int)
            if not (value.isdecimal() if is_number else value):
                reject(f"{name} wants a {'number' if is_number else 'value'}")
            found[name] = int(value) if is_number else value
            del sys.argv[at : at + 2]
    return found.values()


def programs(given, built):
    """The programs that a script runs: those that it is given, and then those that are built. One that is given must be there."""
    for it in given:
        if not os.access(it, os.X_OK):
            reject(f"no program '{it}'")
    return [os.path.realpath(it) for it in [*given, *built[len(given) :]]]


def skip_unless_built(*binaries):
    """Ends the script with no test where one of these programs is not built."""
    for it in binaries:
        if not os.access(it, os.X_OK):
            print(f"skipped: {os.path.basename(it).replace('_', '-')} is not built: ./build makes it\n0 passed, 0 failed")
            sys.exit()


def reject(why):
    """Ends the script, which is called in another way than its help says."""
    name = os.path.basename(sys.argv[0])
    print(f"{name}: {why} ({name} --help explains)", file=sys.stderr)
    sys.exit(2)


def end_what_runs():
    """Has a signal that ends the script end what it has started, too."""

    def end(number, _frame):
        for pid in descendants(os.getpid()):
            try:
                os.kill(pid, signal.SIGTERM)
            except ProcessLookupError:
                pass
        os._exit(128 + number)

    for number in (signal.SIGHUP, signal.SIGINT, signal.SIGTERM):
        signal.signal(number, end)


def descendants(pid):
    """The processes that this one has started, and theirs."""
    started = subprocess.run(["pgrep", "-P", str(pid)], capture_output=True, text=True).stdout.split()
    return [it for child in map(int, started) for it in [child, *descendants(child)]]

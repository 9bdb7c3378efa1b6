"""Runs of the program in a temporary folder, for the tests that run it many times."""
import os
import random
import resource
import shutil
import subprocess
import sys
import tempfile

tests = os.path.dirname(os.path.realpath(__file__))
program = os.path.realpath(sys.argv[1])
folder = tempfile.TemporaryDirectory(prefix="codesearch")
home = os.path.realpath(folder.name)
os.chdir(home)

wrong = 0


def write(name, data):
    with open(name, "wb") as file:
        file.write(data)


def read(name):
    """The bytes of a file, or None if it does not exist."""
    try:
        with open(name, "rb") as file:
            return file.read()
    except FileNotFoundError:
        return None


def leave(index):
    """Makes the index file have these bytes, or removes it, and removes the temporary file beside it."""
    if os.path.lexists("index~"):
        os.remove("index~")
    if read("index") == index:
        return
    if index is None:
        os.remove("index")
    else:
        write("index", index)


def run(args, given=b"", environment={}, seconds=60, space=None):
    """The status (a signal as a negative number), the output and the lines on standard error. The run is killed after so many
    seconds of processor time. It may have so many bytes of address space."""
    write("given", given)
    streams = [
        (os.POSIX_SPAWN_OPEN, 0, "given", os.O_RDONLY, 0),
        (os.POSIX_SPAWN_OPEN, 1, "out", os.O_WRONLY | os.O_CREAT | os.O_TRUNC, 0o666),
        (os.POSIX_SPAWN_OPEN, 2, "err", os.O_WRONLY | os.O_CREAT | os.O_TRUNC, 0o666),
    ]
    variables = {"CSEARCHINDEX": home + "/index", **environment}
    child = os.posix_spawn(program, [program] + args, variables, file_actions=streams)
    resource.prlimit(child, resource.RLIMIT_CPU, (seconds, seconds))
    if space:
        resource.prlimit(child, resource.RLIMIT_AS, (space, space))
    ended = os.waitpid(child, 0)[1]
    status = -(ended & 127) if ended & 127 else ended >> 8
    return status, read("out"), read("err")


def skip(test, why):
    """Ends the tests, and says why."""
    print(f"skipped: {test}: {why}")
    sys.exit(0)


def build_preloaded(name, test):
    """Builds the library of this name, which a run loads first. Without a compiler, and for a static program, the test ends here."""
    if b"/ld-linux" not in read(program)[:4096]:
        skip(test, "a static program loads no library (make program builds another)")
    compiler = shutil.which("cc")
    if compiler is None:
        skip(test, "there is no cc")
    subprocess.run([compiler, "-O2", "-shared", "-fPIC", "-o", name + ".so", f"{tests}/{name}.c", "-ldl"], check=True)


def build_failer():
    """Builds the library that lets allocations fail."""
    build_preloaded("fail_allocations", "failing allocations")


def failing_run(args, number, given=b""):
    """A run in which that allocation fails (with `N+` also all later ones), and whether one failed."""
    if not os.path.exists("fail_allocations.so"):
        build_failer()
    came = run(args, given, {"LD_PRELOAD": home + "/fail_allocations.so", "FAIL": number, "FAILED": home + "/failed"})
    has_failed = os.path.exists("failed")
    if has_failed:
        os.remove("failed")
    return came, has_failed


def counted_run(args):
    """A run, and the number of its allocations."""
    if not os.path.exists("fail_allocations.so"):
        build_failer()
    write("counted", b"")
    came = run(args, environment={"LD_PRELOAD": home + "/fail_allocations.so", "COUNTED": home + "/counted"})
    return came, len(read("counted"))


def complain(what, came):
    """Counts a wrong run, and prints the first ones."""
    global wrong
    wrong += 1
    if wrong <= 20:
        print(f"WRONG: {what}; came {came}", flush=True)


def try_projects(tool, agrees, searches=1):
    """Whether in each of random projects `agrees(program, dice, folder)` beside a tool, which is so
    many searches. The arguments after the program are the number of searches and a seed. The folders
    where it does not agree stay."""
    if not shutil.which(tool):
        print(f"skipped: {tool} is not installed")
        return True
    projects = int(sys.argv[2]) // searches if len(sys.argv) > 2 else 100
    seed = sys.argv[3] if len(sys.argv) > 3 else "1"
    top, failed = tempfile.mkdtemp(), 0
    for number in range(projects):
        folder = f"{top}/{number}"
        if agrees(program, random.Random(f"{seed} {number}"), folder):
            shutil.rmtree(folder)
        else:
            failed += 1
    print(f"{projects} projects, {failed} differ from {tool}")
    if not failed:
        shutil.rmtree(top)
    return not failed

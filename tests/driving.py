"""What the drivers of rows share: folders of files, one run in a folder of its own, and the report."""
import concurrent.futures
import os
import signal
import subprocess
import tempfile

TOP = os.path.dirname(os.path.dirname(os.path.realpath(__file__)))
FOLDER = None  # stands for a folder in place of a file's bytes
IMAGE = object()  # stands for the bytes of some image
UNREAD = b"input that stays\n"
SECONDS = 120  # the longest that one run may take


def is_image(data):
    """Whether the parts of an image make up these bytes: header, function records, instructions and data."""
    if data is FOLDER or len(data) < 32 or not data.startswith(b"FC3IMAGE"):
        return False
    version, functions, instructions, size = (int.from_bytes(data[i : i + 4], "little") for i in (8, 12, 16, 20))
    return version == 1 and len(data) == 32 + 20 * functions + 16 * instructions + size


def write_files(folder, files):
    for name, data in files.items():
        path = os.path.join(folder, name)
        if data is FOLDER:
            os.mkdir(path)
        else:
            with open(path, "wb") as file:
                file.write(data)


def read_files(folder):
    found = {}
    for at, folders, files in os.walk(folder):
        for name in folders:
            found[os.path.relpath(os.path.join(at, name), folder)] = FOLDER
        for name in files:
            with open(os.path.join(at, name), "rb") as file:
                found[os.path.relpath(os.path.join(at, name), folder)] = file.read()
    return found


class Ran:
    """A run that ended: its status, both outputs, and how many bytes of the input it took."""

    def __init__(self, status, out, err, taken):
        self.status, self.out, self.err, self.taken = status, out, err, taken


def run_in(folder, command, redirect="", limit="", given=UNREAD, stderr=subprocess.PIPE):
    """Runs the command in the folder, under the shell's limit and redirection. None where it does not end in time."""
    with tempfile.TemporaryFile() as source:
        source.write(given)
        source.seek(0)
        with subprocess.Popen(
            ["sh", "-c", f'{limit} exec "$@" {redirect}', "sh", *command],
            cwd=folder, stdin=source, stdout=subprocess.PIPE, stderr=stderr, start_new_session=True,
        ) as running:
            try:
                out, err = running.communicate(timeout=SECONDS)
            except subprocess.TimeoutExpired:
                os.killpg(running.pid, signal.SIGKILL)
                running.communicate()
                return None
        return Ran(running.returncode, out, err, os.lseek(source.fileno(), 0, os.SEEK_CUR))


def report(rows):
    """Runs rows, each a name with a call that gives the lines of what is wrong, as many at once as there are
    processors. Prints what is wrong in the order of the rows, then the counts, and gives the exit status."""
    passed = failed = 0
    with concurrent.futures.ThreadPoolExecutor(os.cpu_count() or 1) as pool:
        answers = [(name, pool.submit(call)) for name, call in rows]
        for name, answer in answers:
            faults = answer.result()
            if faults:
                failed += 1
                print(f"FAILED {name}", *(f"  {fault}" for fault in faults), sep="\n", flush=True)
            else:
                passed += 1
    print(f"{passed} passed, {failed} failed")
    return 1 if failed else 0

"""Counts the instructions of a program by callgrind (Debian's package valgrind), for the scripts beside it. What a command's own
lines cost is told as the difference to the same schedule without them."""
import os, re, subprocess, sys, tempfile
from watched import program, watched


def instructions(path, words, given):
    """The instructions of one run."""
    with tempfile.TemporaryDirectory() as folder:
        command = ["valgrind", "--tool=callgrind", f"--callgrind-out-file={folder}/out", path, *words]
        ran = subprocess.run(command, input=given, stdout=subprocess.DEVNULL, stderr=subprocess.PIPE)
    counted = re.search(rb"Collected : (\d+)", ran.stderr)
    if ran.returncode or not counted:
        sys.exit(f"{' '.join(words)}: status {ran.returncode}\n{ran.stderr.decode(errors='replace')[-2000:]}")
    return int(counted.group(1))


def spent(path, words, given):
    """The seconds of one run, the most memory in use in megabytes, and its last line."""
    with tempfile.TemporaryFile() as file, tempfile.TemporaryFile() as put:
        file.write(given)
        file.seek(0)
        seconds, most, status = watched([path, *words], stdin=file, stdout=put)
        put.seek(max(os.fstat(put.fileno()).st_size - 200, 0))
        tail = put.read().decode(errors="replace").splitlines()[-1:]
    if status:
        sys.exit(f"{' '.join(words)}: status {status}: {tail}")
    return seconds, most / 1000, *tail


def tell(command, schedule, sizes, longest, unit):
    """Tells what `command` takes for schedules of so many units, and what `replay` takes for them without the command's own lines:
    instructions of all sizes, and time and memory of the longest schedule. `schedule` gives the lines of a size, and whether the
    command's own ones are among them."""
    path = program()
    given = lambda size, own: "\n".join([*schedule(size, own), ""]).encode()
    for size in sizes:
        own, plain = (instructions(path, [it], given(size, it != "replay")) for it in (command, "replay"))
        counts = f"{own / 1e6:10.1f} million instructions, without its lines {plain / 1e6:10.1f}"
        print(f"{size:8} {unit}: {counts}, {(own - plain) / size:8.0f} for each", flush=True)
    for word in (command, "replay"):
        seconds, megabytes, tail = spent(path, [word], given(longest, word != "replay"))
        print(f"{longest:8} {unit}, {word}: {seconds:.2f} s, {megabytes:.0f} MB, {tail}", flush=True)

"""Runs a program and looks at its memory meanwhile, for the scripts beside it. By itself it runs its words, and puts the most memory
that was in use behind what these put."""
import os, subprocess, sys, time


def program():
    """The program that is measured, as `bench/program` names it."""
    found = subprocess.run([os.path.join(os.path.dirname(os.path.abspath(__file__)), "program")], stdout=subprocess.PIPE, text=True)
    return found.stdout.rstrip("\n") if found.returncode == 0 else sys.exit(1)


def memory(process):
    """The kilobytes so far. What `getrusage` tells of a child counts this script's own memory too."""
    try:
        with open(f"/proc/{process.pid}/status", encoding="utf-8") as status:
            return next((int(line.split()[1]) for line in status if line.startswith("VmHWM:")), 0)
    except OSError:
        return 0


def watched(words, longest=None, **files):
    """The seconds that a run takes, the most memory in use in kilobytes, and the status. It is ended after the longest time."""
    most, begun = 0, time.time()
    process = subprocess.Popen(words, **files)
    while process.poll() is None:
        most = memory(process) or most
        time.sleep(0.002)
        if longest and time.time() - begun > longest:
            process.kill()
    return time.time() - begun, most, process.returncode


if __name__ == "__main__":
    _, most, status = watched(sys.argv[1:])
    print(most, "KB at most")
    sys.exit(status)

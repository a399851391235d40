#!/usr/bin/env python3
"""What large mails and long rcfiles cost beside procmail 3.22, where it is installed.

Each row is one delivery, ours and 3.22's by turns, seven times each: the median of the processor's time (user and
system, milliseconds, that of its programs too), of a large mail the most memory, and the time by 3.22's. It isn't part
of the check.
"""
import os
import resource
import shutil
import statistics
import subprocess
import sys
import tempfile

TURNS = 7
MIB = 1024 * 1024
TOP = os.path.dirname(os.path.dirname(os.path.abspath(__file__)))
OURS = os.path.join(os.path.abspath(os.environ.get("BIN") or os.path.join(TOP, "bin")), "procmail")
THEIRS = shutil.which("procmail")


def write_mail(path, size):
    """A mail of lines of 64 bytes, written in pieces, so that this program stays small beside what it measures."""
    with open(path, "wb") as mail:
        mail.write(b"From a@b Thu Jan  1 00:00:00 1970\nFrom: a@b\nSubject: hi\n\n")
        left, line = size, 0
        while left > 0:
            piece = b"".join(
                b"line %8d of the message, with sixty-four bytes in all of it\n" % (line + i) for i in range(1024)
            )
            mail.write(piece[:left])
            left -= len(piece)
            line += 1024


def measure(program, rcfile, mail):
    """The processor's time in milliseconds and the most memory in KiB of one delivery, and its status."""
    for name in os.listdir("."):
        if name.startswith(("mbox", "box", "folder", "log")):
            shutil.rmtree(name) if os.path.isdir(name) else os.remove(name)
    with open(mail, "rb") as text, open(os.devnull, "wb") as nothing:
        child = subprocess.Popen([program, "-m", "./" + rcfile], stdin=text, stdout=nothing, stderr=nothing)
        _, status, used = os.wait4(child.pid, 0)
        child.returncode = os.waitstatus_to_exitcode(status)
    return (used.ru_utime + used.ru_stime) * 1000, used.ru_maxrss, child.returncode


def row(label, rcfile, mail):
    programs = [OURS] + ([THEIRS] if THEIRS else [])
    runs = {program: [] for program in programs}
    for _ in range(TURNS):
        for program in programs:
            runs[program].append(measure(program, rcfile, mail))
    size = os.path.getsize(mail)
    told = [f"{label:46}"]
    medians = []
    for program in programs:
        time = statistics.median(run[0] for run in runs[program])
        peak = statistics.median(run[1] for run in runs[program])
        failed = sum(run[2] != 0 for run in runs[program])
        medians.append(time)
        told.append(f"{time:8.1f} ms" + (f" {failed} failed" if failed else ""))
        # Of a small run this would be what the program that starts it has.
        if size > 32 * MIB:
            told.append(f"{peak:8.0f} KiB, {peak * 1024 / size:.2f} of the mail")
    if len(medians) == 2 and medians[1] > 0:
        told.append(f"time {medians[0] / medians[1]:.2f}")
    print("  ".join(word for word in told if word), flush=True)


def rcfile(name, text):
    with open(name, "w") as file:
        file.write(text)
    return name


def with_room(mail, times):
    """Whether the mail is delivered with so many times its length of address space."""
    bound = int(os.path.getsize(mail) * times)
    with open(mail, "rb") as text:
        done = subprocess.run(
            [OURS, "-m", "./one"],
            stdin=text,
            stderr=subprocess.DEVNULL,
            preexec_fn=lambda: resource.setrlimit(resource.RLIMIT_AS, (bound, bound)),
        )
    whole = os.path.exists("mbox") and os.path.getsize("mbox") >= os.path.getsize(mail)
    return "delivered" if done.returncode == 0 and whole else f"status {done.returncode}"


def main():
    if not os.access(OURS, os.X_OK):
        sys.exit(f"{OURS} isn't there: make build")
    folder = tempfile.mkdtemp()
    try:
        os.chdir(folder)
        for name in ("MAILDIR", "DEFAULT", "ORGMAIL"):
            os.environ.pop(name, None)
        for name, size in (("small", 4096), ("m1", MIB), ("m10", 10 * MIB), ("m50", 50 * MIB)):
            write_mail(name, size)
        one = rcfile("one", ":0\nmbox\n")
        for label, mail in (("1 MiB", "m1"), ("10 MiB", "m10"), ("50 MiB", "m50")):
            row(label + " to a mailbox", one, mail)
        copies = "".join(f":0 c\nbox{number}\n\n" for number in range(20))
        row("50 MiB to 20 mailboxes", rcfile("twenty", copies + ":0\n/dev/null\n"), "m50")
        for label, flags, filter in (
            ("5 filters that change nothing", "fw", "cat"),
            ("5 filters of its header", "fhw", "sed '2iX-Seen: yes'"),
            ("5 filters that add a line", "fw", "sed '2iX-Seen: yes'"),
        ):
            text = f":0 {flags}\n| {filter}\n\n" * 5 + ":0\nmbox\n"
            row("50 MiB through " + label, rcfile("filters", text), "m50")
        row("50 MiB captured", rcfile("capture", ":0 cw\nX=| cat > /dev/null\n\n:0\n/dev/null\n"), "m50")
        row("4 KiB to a maildir", rcfile("maildir", ":0\nfolder/\n"), "small")
        names = "".join(f"V{number}=value\n" for number in range(1000))
        clones = ":0 c\n/dev/null\n\n" * 1000 + ":0\n/dev/null\n"
        row("1,000 copies after 1,000 variables", rcfile("clones", names + clones), "small")
        row("1,000 lines to LOGFILE", rcfile("lines", "LOGFILE=log\n" + 'LOG="a line\n"\n' * 1000 + ":0\nmbox\n"), "small")
        long = "LINEBUF=600000\n" + "A=" + "x" * 1024 + "\n" + "B=" + "$A" * 256 + "\n:0\nmbox\n"
        row("a value of 256 KiB", rcfile("value", long), "small")
        print("50 MiB with 2.2 times its length of address space:", with_room("m50", 2.2))
    finally:
        os.chdir(TOP)
        shutil.rmtree(folder)


if __name__ == "__main__":
    main()

"""Counts the instructions that a program executes: under the toolchain's emulator a trace line for each, else by valgrind or,
where that is missing, by perf."""
import os
import re
import shutil
import subprocess
import tempfile
import threading

import kit

BLOCK = 1 << 20


def counter():
    """The program that counts here, if any does: valgrind rather than perf, which needs a machine that lets it count."""
    if kit.is_emulated():
        return str(kit.EMULATOR)
    return shutil.which("valgrind") or shutil.which("perf")


def version():
    return kit.said_by(counter(), "--version").split("\n")[0]


def lines_of(path):
    """How many lines that begin with `Trace` come through a pipe."""
    count, last = 0, b"\n"
    with open(path, "rb", buffering=0) as trace:
        while block := trace.read(BLOCK):
            # the end of the block before, where a line's first word may begin
            block = last + block
            count += block.count(b"\nTrace")
            last = block[-5:]
    return count


def counted_by_emulator(program, given, arguments):
    """One block of translated code for each instruction, and a line for each block that is run."""
    with tempfile.TemporaryDirectory() as folder:
        pipe = os.path.join(folder, "trace")
        os.mkfifo(pipe)
        words = [str(kit.EMULATOR), "-one-insn-per-tb", "-d", "exec,nochain", "-D", pipe, *kit.LOADER, str(program), *arguments]
        run = subprocess.Popen(words, stdin=given, stdout=subprocess.PIPE)
        answer = []
        listen = threading.Thread(target=lambda: answer.append(run.communicate()[0]))
        listen.start()
        count = lines_of(pipe)
        listen.join()
    if run.returncode:
        raise SystemExit(f"bench: {program} ended with status {run.returncode}")
    return count, answer[0]


def counted_by_valgrind(program, given, arguments):
    words = ["valgrind", "--tool=callgrind", "--callgrind-out-file=/dev/null", *kit.LOADER, str(program), *arguments]
    run = subprocess.run(words, stdin=given, stdout=subprocess.PIPE, stderr=subprocess.PIPE, check=True)
    return int(re.search(rb"Collected : (\d+)", run.stderr).group(1)), run.stdout


def counted_by_perf(program, given, arguments):
    words = ["perf", "stat", "-x,", "-e", "instructions:u", *kit.LOADER, str(program), *arguments]
    run = subprocess.run(words, stdin=given, stdout=subprocess.PIPE, stderr=subprocess.PIPE, check=True)
    found = re.search(rb"^(\d+),[^\n]*instructions", run.stderr, re.M)
    if not found:
        raise SystemExit("bench: perf counts no instructions here")
    return int(found.group(1)), run.stdout


def counted(program, given, *arguments):
    """How many instructions a program executes on an input, from its start to its end, and what it writes. The input is a
    file, since a pipe gives it in parts that differ from run to run."""
    with tempfile.TemporaryFile() as file:
        file.write(given)
        file.seek(0)
        if kit.is_emulated():
            return counted_by_emulator(program, file, arguments)
        count = counted_by_valgrind if counter().endswith("valgrind") else counted_by_perf
        return count(program, file, arguments)

"""The toolchain's programs, found by `rt doc`; building the two sides; running a program on bytes."""
import pathlib
import subprocess
import sys

ROOT = pathlib.Path(__file__).resolve().parent.parent
BUILT = ROOT / "target" / "bench"
FORMATS = ("meinberg", "erlangen", "clock_string", "frame", "minute", "telegram", "bridge", "streams")
CLANG_WORDS = ("--target=x86_64-unknown-linux-gnu", "-march=x86-64", "-O3", "-fPIC", "-nostdinc", "-Wall", "-Wextra", "-Werror")


def said_by(*words):
    return subprocess.run(words, stdout=subprocess.PIPE, check=True, text=True, cwd=ROOT).stdout.strip()


# the toolchain's folder is that of its first guide
OWN = pathlib.Path(said_by("rt", "doc")).parent
TOOLS = OWN / "toolchain"
EMULATOR = TOOLS / "bin" / "qemu-x86_64"
LOADER = [str(TOOLS / "lib" / "ld-linux-x86-64.so.2"), "--library-path", str(TOOLS / "lib")]


def is_emulated():
    return EMULATOR.exists()


def output_of(program, given, *arguments):
    """What a program of either side writes."""
    words = ([str(EMULATOR)] if is_emulated() else []) + LOADER + [str(program), *arguments]
    return subprocess.run(words, input=given, stdout=subprocess.PIPE, check=True).stdout


def build_ours(*names):
    """Proves and builds programs of crates/, and gives their paths."""
    for name in names:
        log = subprocess.run([ROOT / "run", name], stdin=subprocess.DEVNULL, stdout=subprocess.DEVNULL, stderr=subprocess.PIPE, text=True)
        if log.returncode:
            sys.exit(f"bench: ./run {name} failed:\n" + log.stderr[-3000:])
    return [ROOT / "crates" / name / "out" / name for name in names]


def build_plain(*mains):
    """Compiles the C baseline and links each program of it with the formats, as the toolchain links its own programs."""
    BUILT.mkdir(parents=True, exist_ok=True)
    for name in (*FORMATS, *mains):
        source, target = ROOT / "bench" / "c" / f"{name}.c", BUILT / f"{name}.o"
        subprocess.run([TOOLS / "bin" / "clang", *CLANG_WORDS, "-c", source, "-o", target], check=True)
    for name in mains:
        objects = [BUILT / f"{part}.o" for part in (name, *FORMATS)]
        words = ["--target", "x86_64-unknown-linux-gnu", "--toolchain", TOOLS, "-o", BUILT / name, *objects]
        subprocess.run([OWN / "bin" / "rattle-link", *words], check=True, stderr=subprocess.DEVNULL)
    return [BUILT / name for name in mains]


def versions():
    """A line for each tool that builds."""
    return [said_by("rt", "version"), said_by(str(TOOLS / "bin" / "clang"), "--version").split("\n")[0]]

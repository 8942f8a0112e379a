"""What the programs that measure share: instructions counted, the driver built, and numbers as the tables have them."""
import os, re, subprocess

TOP = os.path.dirname(os.path.dirname(os.path.abspath(__file__)))
# An instruction that copies a block would count once for each byte: the C library is told to copy by loops.
LOOPS = "glibc.cpu.x86_rep_movsb_threshold=1000000000:glibc.cpu.x86_rep_stosb_threshold=1000000000"


def counted(words, text=b""):
    """What a program prints and how many instructions it takes, by callgrind; options for it come before the program."""
    told = dict(os.environ, GLIBC_TUNABLES=LOOPS)
    tool = ["valgrind", "--tool=callgrind", "--callgrind-out-file=/dev/null"] + words
    run = subprocess.run(tool, input=text, stdout=subprocess.PIPE, stderr=subprocess.PIPE, env=told, check=True)
    return run.stdout.decode(), int(re.search(r"Collected : (\d+)", run.stderr.decode()).group(1))


def driver():
    """The program of bindings/bench, built over the archives that are there."""
    place = os.path.join(TOP, "bindings", "bench")
    subprocess.run(["cargo", "build", "--release", "--offline", "--quiet"], cwd=place, check=True)
    return os.path.join(place, os.environ.get("CARGO_TARGET_DIR", "target"), "release", "lintelsong-bench")


def said(words):
    """The lines that a program prints."""
    return subprocess.run(words, stdout=subprocess.PIPE, check=True).stdout.decode().splitlines()


def number(n):
    return "{:,.0f}".format(n)


def processor():
    with open("/proc/cpuinfo") as f:
        names = [one.split(":")[1].strip() for one in f if one.startswith("model name")]
    return "%s, %d processors" % (names[0] if names else "unknown", len(names))

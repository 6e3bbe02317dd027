"""The program and its companions below a folder of their own, where no clone and no toolchain is needed."""

import os
import shutil
import tempfile

from place import DELIVERY, DIRECTORY, PROGRAM, TOP, example, put, ran

# Where no clone and no toolchain is.
PATH = "/usr/bin:/bin"


def clone(folder):
    """A clone with the program in its place."""
    for name in ("bin", "docs", "examples"):
        shutil.copytree(os.path.join(TOP, name), os.path.join(folder, name))
    shutil.copy(os.path.join(TOP, "README.md"), folder)
    out = os.path.join(folder, "crates", "pec", "out")
    os.makedirs(out)
    return out


def of_prefix(folder, prefix):
    made = ran([os.path.join(folder, "bin", "install"), prefix])
    made.must(1, err=["the program isn't built yet"])
    shutil.copy(PROGRAM, os.path.join(folder, "crates", "pec", "out", "pec"))
    for _ in range(2):
        ran([os.path.join(folder, "bin", "install"), prefix]).must(0, f"{prefix}/bin has to be on the path")
    for words, status in [([], 2), (["a", "b"], 2), (["--all"], 2), ([os.path.join(folder, "out")], 1)]:
        ran([os.path.join(folder, "bin", "install"), *words]).must(status)
    # a package is made below another folder
    packed = {**os.environ, "DESTDIR": os.path.join(prefix, "packed")}
    ran([os.path.join(folder, "bin", "install"), "/usr"], env=packed).must(0)
    if not os.path.exists(os.path.join(prefix, "packed", "usr", "bin", "pec-log")):
        raise SystemExit("DESTDIR isn't looked at")


def of_use(prefix):
    """Each of them is run, by its name on the path, in a folder of somebody's."""
    env = {"PATH": os.path.join(prefix, "bin") + ":" + PATH, "HOME": prefix}
    with tempfile.TemporaryDirectory() as folder:
        how = {"env": env, "folder": folder}
        ran(["pec", "run"], DELIVERY, **how).must(0, exact=example("delivery.out"))
        ran(["pec", "run"], DELIVERY, **how).must(8, err=["there are journals in"])
        ran(["pec", "--version"], **how).must(0, "program: " + os.path.join(prefix, "lib", "pec"), "Toolchain: ")
        ran(["pec", "help", "pec-log"], **how).must(0, "pec-log DAY < DIRECTORY", "log --help says more")
        ran(["pec-log", "2024-01-02"], DIRECTORY, **how).must(0, err=["6 rows"])
        ran(["pec-fate", "pec.0000000@alfa.example"], DIRECTORY, **how).must(0, "bob@beta.example: delivered")
        ran(["pec-json"], example("delivery.out"), **how).must(0, '"book"')
        ran(["pec-draw"], example("delivery.out"), **how).must(0, exact=example("delivery.svg"))
        ran(["pec-lint", "-"], DELIVERY, **how).must(0, exact=b"")
        show = ran(["pec", "resume"], DIRECTORY + b"%%\nshow alice@alfa.example 1\n", **how).must(0)
        ran(["pec-letter", "save"], show.out, **how).must(0, "delivery-avc.0.0000000.0@beta.example.eml")
        put(folder, "directory", DIRECTORY)
        ran(["pec-verify", "directory", "delivery-avc.0.0000000.0@beta.example.eml"], **how).must(0, "1 genuine, 0 refused")


def of_shell(prefix):
    """The man page, and what bash completes."""
    page = os.path.join(prefix, "share", "man", "man1", "pec.1")
    if shutil.which("man"):
        env = {"PATH": PATH, "MANPAGER": "cat", "MANWIDTH": "80"}
        ran(["man", "-l", page], env=env).must(0, "pec run < INPUT", "pec-letter submit")
    else:
        print("man: left out, since it isn't installed")
    completions = os.path.join(prefix, "share", "bash-completion", "completions")
    for words, wanted in [
        ("pec re", "resume"),
        ("pec help vault-", "vault-show"),
        ("pec-letter su", "submit"),
        ("pec-log 2024-01-02 --o", "--of"),
        (f"pec-verify {prefix}/li", f"{prefix}/lib"),
    ]:
        name, count = words.split(" ")[0], words.count(" ")
        shell = f". {completions}/{name}; COMP_WORDS=({words}); COMP_CWORD={count}; "
        shell += f"$(complete -p {name} | sed 's/.*-F \\([a-z_]*\\) .*/\\1/'); echo \"${{COMPREPLY[@]}}\""
        ran(["bash", "-c", shell]).must(0, exact=wanted.encode() + b"\n")


def play():
    with tempfile.TemporaryDirectory() as folder, tempfile.TemporaryDirectory() as prefix:
        prefix = os.path.realpath(prefix)
        clone(folder)
        of_prefix(folder, prefix)
        of_use(prefix)
        of_shell(prefix)
    print("install: all are run by their names on the path, and bash and man know them")

"""What make_release and compare_release share: what a release stands on, and how its files are put together."""
import argparse
import collections
import hashlib
import io
import os
import pathlib
import platform
import re
import shutil
import subprocess
import tarfile

TOP = pathlib.Path(__file__).resolve().parent.parent
TARGET = "x86_64-linux-gnu"
PAGES = "share/doc/paldwosk"
# The crates that a release has something of, what that is, and the command that proves and builds it.
BUILT = {"phaser_c": ("archive", "crates/phaser_c/out/libphaser_c.a", "tools/build_program phaser_c"),
         "phaser_run": ("program", "crates/phaser_run/out/phaser_run", "./phaser_run --prove")}
DONE, DIFFERENT, REFUSED = 0, 1, 3

# What the files are made of: the version, the commit and its time in seconds, and whether all is proved.
Origin = collections.namedtuple("Origin", "version commit time is_proved")


class Refused(Exception):
    """No release is made, and this says why."""


def words_of(text):
    """The words of both scripts, to which each adds its own."""
    words = argparse.ArgumentParser(description=text, formatter_class=argparse.RawDescriptionHelpFormatter)
    for kind, file, _ in BUILT.values():
        words.add_argument("--" + kind, type=pathlib.Path, metavar="PATH",
                           help="the %s, in place of %s; with --unproved-for-tests" % (kind, file))
    words.add_argument("--unproved-for-tests", action="store_true",
                       help="takes what isn't proved or current, and writes UNPROVED in place of PROVED")
    words.add_argument("--machine", default=platform.machine(), help="what this machine is (%(default)s); for tests")
    return words


def asked_of(words):
    """The words of this call. A program that nobody has proved is packaged for tests alone."""
    asked = words.parse_args()
    if (asked.program or asked.archive) and not asked.unproved_for_tests:
        words.error("--program and --archive stand beside --unproved-for-tests")
    for name, (kind, file, _) in BUILT.items():
        setattr(asked, kind, (getattr(asked, kind) or TOP / file).resolve())
    return asked


def told(*words):
    """What a command prints. Refused where it fails, with its last line."""
    ran = subprocess.run([*map(str, words)], stdin=subprocess.DEVNULL, stdout=subprocess.PIPE, stderr=subprocess.PIPE, cwd=str(TOP))
    if ran.returncode:
        said = ran.stderr.decode(errors="replace").strip().splitlines() or ["status %d" % ran.returncode]
        raise Refused("%s failed: %s" % (words[0], said[-1]))
    return ran.stdout.decode(errors="replace").strip()


def build_program(*words):
    return told(TOP / "tools/build_program", *words)


def digest(data):
    return hashlib.sha256(data).hexdigest()


# ---- what is refused


def refuse_machine(machine):
    if platform.system() != "Linux" or machine != "x86_64" or platform.libc_ver()[0] != "glibc":
        here = "%s on %s, with %s" % (platform.system(), machine, platform.libc_ver()[0] or "another C library")
        raise Refused("a release is made on Linux on x86_64 with glibc alone, and this is " + here)


def refuse_missing(tools):
    for tool in tools:
        if not shutil.which(tool):
            raise Refused("the command %s isn't on the PATH" % tool)


def refuse_edits():
    edits = told("git", "--no-optional-locks", "status", "--porcelain", "--untracked-files=all").splitlines()
    if edits:
        raise Refused("the tree has edits, the first is %s: a release is of a commit" % edits[0].split(None, 1)[1])


def refuse_other_version(version):
    """The crate, the Python package and the headers say their version themselves."""
    if not re.fullmatch(r"\d+\.\d+\.\d+", version):
        raise Refused("packaging/VERSION isn't of the form 1.2.3")
    said = {"wrappers/rust/Cargo.toml": re.findall(r'^version = "(.*)"', (TOP / "wrappers/rust/Cargo.toml").read_text(), flags=re.M)[0]}
    package = TOP / "wrappers/python/paldwosk/__init__.py"
    said["wrappers/python/paldwosk/__init__.py"] = re.findall(r'^__version__ = "(.*)"', package.read_text(), flags=re.M)[0]
    header = TOP / "include/paldwosk_version.h"
    if header.exists():
        parts = dict(re.findall(r"#define PALDWOSK_VERSION_(MAJOR|MINOR|PATCH)\s+(\d+)", header.read_text()))
        said["include/paldwosk_version.h"] = ".".join(parts.get(it, "?") for it in ("MAJOR", "MINOR", "PATCH"))
    for file, other in said.items():
        if other != version:
            raise Refused("packaging/VERSION says %s, and %s %s" % (version, file, other))


def refuse_unproved(asked):
    for name, (kind, file, command) in BUILT.items():
        if not asked.unproved_for_tests and subprocess.run([str(TOP / "tools/build_program"), "--is-current", name]).returncode:
            raise Refused("%s isn't proved and built from the sources as they are: %s does that" % (file, command))
        if not getattr(asked, kind).is_file():
            raise Refused("there is no %s: %s builds it" % (getattr(asked, kind), command))


def origin_of(asked, tools):
    """What the release is of. Refused if anything forbids a release."""
    refuse_machine(asked.machine)
    refuse_missing(["git", "ar", os.environ.get("CC", "cc"), *tools])
    refuse_edits()
    version = (TOP / "packaging/VERSION").read_text().strip()
    refuse_other_version(version)
    refuse_unproved(asked)
    commit, time = told("git", "show", "-s", "--format=%H %ct", "HEAD").split()
    return Origin(version, commit, int(time), not asked.unproved_for_tests)


# ---- the files


def files_in(tree):
    """The paths of all files and links of a tree, in order."""
    return sorted(str(it.relative_to(tree)) for it in tree.rglob("*") if it.is_symlink() or not it.is_dir())


def record_of(tree, asked, origin):
    """What PROVED says. `sha256sum --check` reads it too, and leaves the lines with # aside."""
    lines = [] if origin.is_proved else ["# UNPROVED: made for tests; nothing is known of its proofs"]
    lines += ["# paldwosk %s for %s" % (origin.version, TARGET), "# commit %s" % origin.commit]
    for name, (kind, _, _) in BUILT.items():
        made = "%s, sha256 %s" % (kind, digest(getattr(asked, kind).read_bytes()))
        if origin.is_proved:
            kit = build_program("--kit-of", name) or "a kit that isn't known"
            made += ", proved and built with %s from the sources %s" % (kit, build_program("--sources", name).split()[0])
        lines.append("# %s: %s" % (name, made))
    sums = ["%s  %s" % (digest((tree / it).read_bytes()), it) for it in files_in(tree) if not (tree / it).is_symlink()]
    return "".join(line + "\n" for line in lines + sums)


def oldest_glibc(files):
    """The second number of the oldest glibc that has what these files call."""
    found = [int(it) for file in files for it in re.findall(rb"GLIBC_2\.(\d+)", file.read_bytes())]
    return max(found, default=2)


def make_tree(tree, asked, origin):
    """Puts all that the tarball has into a new folder, and answers the path of its record there."""
    told(TOP / "packaging/make_tree", tree, asked.archive, asked.program)
    shutil.copyfile(str(TOP / "Makefile"), str(tree / "Makefile"))
    (tree / "INSTALL.md").symlink_to(PAGES + "/docs/install.md")
    record = tree / PAGES / ("PROVED" if origin.is_proved else "UNPROVED")
    record.write_text(record_of(tree, asked, origin))
    return record


def member(tree, name, folder, time):
    """The head of a file or a link in the tarball: nothing of the machine is in it."""
    file, info = tree / name, tarfile.TarInfo("%s/%s" % (folder, name))
    info.mtime, info.uname, info.gname = time, "root", "root"
    info.mode = 0o755 if os.access(str(file), os.X_OK) else 0o644
    if file.is_symlink():
        info.type, info.mode, info.linkname = tarfile.SYMTYPE, 0o777, os.readlink(str(file))
    else:
        info.size = file.stat().st_size
    return info


def put_tar(tree, folder, time, out):
    with tarfile.open(fileobj=out, mode="w", format=tarfile.USTAR_FORMAT) as tar:
        for name in files_in(tree):
            info = member(tree, name, folder, time)
            tar.addfile(info, None if info.issym() else io.BytesIO((tree / name).read_bytes()))


def name_of(origin):
    return "paldwosk-%s-%s" % (origin.version, TARGET)

"""The debs of a release: the program and its tools, the shared library alone, and what programs are compiled with."""
import collections
import email.utils
import gzip
import hashlib
import os
import re
import shutil

from releases import PAGES, files_in, oldest_glibc, told

OWNER = "the owner of Paldwosk <nobody@localhost>"
CONTROL = """\
Package: %s
Source: paldwosk
Version: %s
Architecture: amd64
Maintainer: %s
Section: %s
Priority: optional
Depends: %s
Installed-Size: %d
Description: %s
"""
CHANGELOG = """\
paldwosk (%s) unstable; urgency=medium

  * Release of commit %s.
    CHANGELOG.md of the package paldwosk says what is new.

 -- %s  %s
"""
# Its section, what it depends on besides the C library, what it is in a line, and what more is said of it.
Package = collections.namedtuple("Package", "section depends what more")
PROGRAM, SHARED, LIBRARY = "paldwosk", "libpaldwosk0", "libpaldwosk-dev"
PACKAGES = {
    PROGRAM: Package("devel", ["python3 (>= 3.8)"], "runs phasers, replays and draws traces of runs, certifies programs", """\
A phaser is a barrier for a changing set of tasks. The command phaser_run
runs programs of such tasks on threads and without, replays the traces that
runs leave, judges events as they come, and says whether every run of a
program prints the same report. Its core is formally proved.
.
phaser-check says where and why a text is refused. phaser-picture draws a
trace."""),
    SHARED: Package("libs", [], "barriers and phasers for threads, shared library", """\
A phaser is a barrier for a changing set of threads, which may come and go
from phase to phase, signal without waiting, and send values that each phase
folds.
.
This package has the shared library, which programs in C and C++ are linked
with, and which Python, Go and others load."""),
    LIBRARY: Package("libdevel", ["libpaldwosk0 (= %s)", "libc6-dev"], "barriers and phasers for threads, development files", """\
A phaser is a barrier for a changing set of threads, which may come and go
from phase to phase, signal without waiting, and send values that each phase
folds.
.
This package has the headers, the static library, a Rust crate, a Python
module, and drop-ins that check traces of barriers of other runtimes."""),
}
OF_SHARED = re.compile(r"lib/lib\w+\.so\.")
OF_LIBRARY = re.compile(r"include/|lib/|share/man/man3/|share/paldwosk/(examples|python|wrappers)/")
MAN_PAGE = re.compile(r"share/man/man\d/")
# Where zsh looks in /usr on Debian.
ZSH, ZSH_OF_DEBIAN = "share/zsh/site-functions/", "share/zsh/vendor-completions/"
# The shared library's name and number, and the package from which on a program that is linked with it runs.
SHLIBS = "libpaldwosk 0 %s (>= %s)\n"
# So programs find the shared library at once.
TRIGGERS = "activate-noawait ldconfig\n"


def package_of(name):
    """The package that a file of the tree is in; none for what only the tarball has."""
    if not name.startswith(("bin/", "include/", "lib/", "libexec/", "share/")):
        return None
    if OF_SHARED.match(name):
        return SHARED
    return LIBRARY if OF_LIBRARY.match(name) else PROGRAM


def compressed(data):
    """The data by gzip, with nothing of the machine or the time in it."""
    return gzip.compress(data, 9, mtime=0)


def put(target, data):
    target.parent.mkdir(parents=True, exist_ok=True)
    target.write_bytes(data)


def copy(source, target):
    """Copies a file or a link; a man page is compressed."""
    if MAN_PAGE.search(str(target)):
        put(target.with_name(target.name + ".gz"), compressed(source.read_bytes()))
        return
    target.parent.mkdir(parents=True, exist_ok=True)
    shutil.copy2(str(source), str(target), follow_symlinks=False)


def put_pages(tree, package, origin, root):
    """What each package says of itself, since each may be there without the others."""
    pages = root / "usr/share/doc" / package
    for own in ("PROVED", "UNPROVED", "LICENSE"):
        if package != PROGRAM and (tree / PAGES / own).exists():
            copy(tree / PAGES / own, pages / own)
    when = email.utils.formatdate(origin.time)
    put(pages / "changelog.gz", compressed((CHANGELOG % (origin.version, origin.commit, OWNER, when)).encode()))


def description_of(package):
    """The line of the package, and below it the others as dpkg reads them."""
    said = PACKAGES[package]
    return "\n ".join([said.what, *said.more.splitlines()])


def control_of(files, package, version):
    """What dpkg is told of a package with these files."""
    built = [it for it in files if "libexec" in it.parts or ".so." in it.name]
    depends = ["libc6 (>= 2.%d)" % oldest_glibc(built)] if built else []
    depends += [it.replace("%s", version) for it in PACKAGES[package].depends]
    size = sum(it.stat().st_size for it in files) // 1024 + 1
    return CONTROL % (package, version, OWNER, PACKAGES[package].section, ", ".join(depends), size, description_of(package))


def put_control(root, package, version):
    """The files that dpkg reads, once all others are there."""
    files = [root / it for it in files_in(root) if not (root / it).is_symlink()]
    sums = "".join("%s  %s\n" % (hashlib.md5(it.read_bytes()).hexdigest(), it.relative_to(root)) for it in files)
    (root / "DEBIAN").mkdir()
    (root / "DEBIAN/control").write_text(control_of(files, package, version))
    (root / "DEBIAN/md5sums").write_text(sums)
    if package == SHARED:
        (root / "DEBIAN/shlibs").write_text(SHLIBS % (SHARED, version))
        (root / "DEBIAN/triggers").write_text(TRIGGERS)


def set_modes(root):
    """Has no file and no folder of the mode that the caller's umask gave it."""
    for it in [root, *root.rglob("*")]:
        if not it.is_symlink():
            it.chmod(0o755 if it.is_dir() or os.access(str(it), os.X_OK) else 0o644)


def put_deb(tree, package, origin, folder, room):
    """Writes one package, by way of a folder in the room that has what it installs."""
    root = room / package
    for name in files_in(tree):
        if package_of(name) == package:
            copy(tree / name, root / "usr" / name.replace(ZSH, ZSH_OF_DEBIAN))
    put_pages(tree, package, origin, root)
    put_control(root, package, origin.version)
    set_modes(root)
    told("dpkg-deb", "--root-owner-group", "-Zgzip", "--build", root, folder / ("%s_%s_amd64.deb" % (package, origin.version)))


def put_debs(tree, origin, folder, room):
    os.environ["SOURCE_DATE_EPOCH"] = str(origin.time)  # to dpkg-deb, no file is newer
    for package in PACKAGES:
        put_deb(tree, package, origin, folder, room)

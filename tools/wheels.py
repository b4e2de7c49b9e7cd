"""The Python wheel of a release: the package, its checker, its plugin of pytest and the shared library, as pip installs them."""
import base64
import hashlib
import re
import stat
import time
import zipfile

from releases import PAGES, TOP, oldest_glibc

PROJECT = TOP / "wrappers/python"
LIBRARY = "libpaldwosk.so.0"
LEAST_GLIBC = 17  # pip has other names for wheels that run with an older one
FIRST_TIME = 315532800  # a zip knows no time before 1980
METADATA = """\
Metadata-Version: 2.1
Name: %s
Version: %s
Summary: %s
Requires-Python: %s
Description-Content-Type: text/markdown

%s"""
WHEEL = """\
Wheel-Version: 1.0
Generator: tools/make_release
Root-Is-Purelib: false
Tag: %s
"""


def said(key):
    """What the project says of itself."""
    return re.search(r'^%s = "(.*)"$' % re.escape(key), (PROJECT / "pyproject.toml").read_text(), flags=re.M)[1]


def entry_points():
    """The same of what other programs find in it, in the form of an installed package."""
    groups = re.findall(r'^\[project\.entry-points\.(\w+)\]\n((?:\w+ = ".*"\n)+)', (PROJECT / "pyproject.toml").read_text(), flags=re.M)
    return "\n".join("[%s]\n%s" % (name, lines.replace('"', "")) for name, lines in groups)


def contents_of(tree, version, tag):
    """The bytes of each file by its name, first those of the package and then what is told of it."""
    code, library = tree / "share/paldwosk/python", tree / "lib" / LIBRARY
    files = {str(it.relative_to(code)): it.read_bytes() for pattern in ("*.py", "py.typed") for it in code.rglob(pattern)}
    files["paldwosk/" + LIBRARY] = library.read_bytes()
    readme = (PROJECT / said("readme")).read_text()
    told = {"METADATA": METADATA % (said("name"), version, said("description"), said("requires-python"), readme),
            "WHEEL": WHEEL % tag, "entry_points.txt": entry_points()}
    told = {name: text.encode() for name, text in told.items()}
    told.update((it.name, it.read_bytes()) for own in ("PROVED", "UNPROVED", "LICENSE") for it in (tree / PAGES).glob(own))
    return {**dict(sorted(files.items())), **{folder_of(version) + name: told[name] for name in sorted(told)}}


def folder_of(version):
    return "paldwosk-%s.dist-info/" % version


def record_of(files, own):
    """The digest and the length of each file, as pip reads them; none of this list itself."""
    digests = {name: base64.urlsafe_b64encode(hashlib.sha256(data).digest()).decode().rstrip("=") for name, data in files.items()}
    lines = ["%s,sha256=%s,%d" % (name, digests[name], len(data)) for name, data in files.items()]
    return "".join(line + "\n" for line in [*lines, own + ",,"]).encode()


def put_wheel(tree, version, seconds, folder):
    """Writes the wheel of what make_tree has put together, with this time, and answers its path."""
    tag = "py3-none-manylinux_2_%d_x86_64" % max(LEAST_GLIBC, oldest_glibc([tree / "lib" / LIBRARY]))
    files, record = contents_of(tree, version, tag), folder_of(version) + "RECORD"
    files[record] = record_of(files, record)
    path = folder / ("paldwosk-%s-%s.whl" % (version, tag))
    with zipfile.ZipFile(str(path), "w") as wheel:
        for name, data in files.items():
            info = zipfile.ZipInfo(name, time.gmtime(max(seconds, FIRST_TIME))[:6])
            info.create_system, info.compress_type = 3, zipfile.ZIP_DEFLATED  # 3 is Unix, whose modes it has
            info.external_attr = (stat.S_IFREG | 0o644) << 16
            wheel.writestr(info, data)
    return path

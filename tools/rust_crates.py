"""The Rust crates of a release, as cargo packages them."""
import shutil

from releases import TOP, told

NAMES = ("paldwosk-sys", "paldwosk")


def put_crates(version, room, folder):
    """Writes both crates of the commit into the folder. They are packaged from a clone in the room: it has no file that git
    ignores, as an archive in vendor."""
    clone, target = room / "clone", room / "target"
    told("git", "clone", "-q", "--shared", TOP, clone)
    manifest = clone / "wrappers/rust/Cargo.toml"
    told("cargo", "package", "--workspace", "--offline", "--no-verify", "--manifest-path", manifest, "--target-dir", target)
    for name in NAMES:
        file = "%s-%s.crate" % (name, version)
        shutil.move(str(target / "package" / file), str(folder / file))

"""Tests what packaging/install puts, over a program and an archive that stand in. This is Python and no part of what is proved."""
import shlex
import shutil
from collections.abc import Callable
from pathlib import Path

from making.library import INTERFACE, Unmade, run
from testing import standin
from testing.checks import compare, need


def spaces_are_kept(folder: Path) -> None:
    """A prefix may have a space, and so may an archive; what lies at the path before the space stays as it is."""
    need("pkg-config")
    it = standin.made(folder / "made")
    prefix, unrelated, archive = folder / "my prog", folder / "my", folder / "my.o archive.a"
    unrelated.write_text("unrelated\n")
    shutil.copyfile(it.archive, archive)
    for built in (it.archive, archive):
        try:
            it.install("--prefix", prefix, archive=built)
        finally:
            compare("the unrelated file", unrelated.read_bytes(), b"unrelated\n")
    asked = {"PKG_CONFIG_LIBDIR": str(prefix / "lib" / "pkgconfig")}
    flags = shlex.split(run(["pkg-config", "--cflags", "--libs", "clickpull"], environment=asked))
    compare("what pkg-config says", flags, [f"-I{prefix}/include", f"-L{prefix}/lib", "-lclickpull"])
    it.calls(*flags, f"-Wl,-rpath,{prefix}/lib")


def members_are_kept(folder: Path) -> None:
    """Members of one name are all in the installed archive, from one archive and from two, and it is the same each time."""
    it = standin.made(folder / "made")
    archive = folder / "lib" / "libclickpull.a"
    it.install("--prefix", folder)
    compare("how many members", len(run(["ar", "t", archive]).splitlines()), 4)
    it.calls(archive)
    once = archive.read_bytes()
    it.install("--prefix", folder)
    compare("made again", archive.read_bytes() == once, True)


def files(folder: Path) -> dict[str, bytes]:
    """The files and links below a folder, with what they have."""
    there = [it for it in folder.rglob("*") if it.is_file() or it.is_symlink()]
    return {str(it.relative_to(folder)): b"" if it.is_symlink() else it.read_bytes() for it in there}


def is_removed(folder: Path, *words: str | Path) -> None:
    """What is installed with these words is removed with them, and listed; the rest stays."""
    it = standin.made(folder / "made")
    root = folder / "root"
    it.install("--root", root, *words)
    installed = sorted(files(root))
    for other in [root / path for path in installed]:
        other.with_name(f"{other.name}.mine").write_text("mine\n")
    listed = it.alone("--uninstall", "--root", root, *words).splitlines()
    compare("what is listed", sorted(line.removeprefix("removed ") for line in listed[:-1]), [str(root / path) for path in installed])
    compare("what is left", files(root), {f"{path}.mine": b"mine\n" for path in installed})
    again = it.alone("--uninstall", "--root", root, *words)
    compare("removed again", again.startswith("nothing of clickpull is installed"), True)


def what_is_installed_is_removed(folder: Path) -> None:
    """--uninstall removes what install puts, and nothing else."""
    is_removed(folder / "a", "--prefix", "/opt/my prog")
    is_removed(folder / "b", "--prefix", "/usr", "--libdir", "/usr/lib/x86_64-linux-gnu", "--zsh", "/usr/share/zsh/vendor-completions")


def links_are_replaced(folder: Path) -> None:
    """A link at a path of ours is replaced, and what it leads to stays as it is."""
    it = standin.made(folder / "made")
    unrelated, link = folder / "unrelated", folder / "lib" / "pkgconfig" / "clickpull.pc"
    unrelated.write_text("unrelated\n")
    link.parent.mkdir(parents=True)
    link.symlink_to(unrelated)
    it.install("--prefix", folder)
    compare("where the link leads", unrelated.read_text(), "unrelated\n")


def toolchain_is_spared(folder: Path) -> None:
    """An installed archive is installed again without the toolchain, to another place and to its own. It is the same, and so is the library."""
    it = standin.made(folder / "made")
    first, other = folder / "first", folder / "other"
    it.install("--prefix", first)
    wanted = files(first)
    archive = first / "lib" / "libclickpull.a"
    it.install("--prefix", other, toolchain=False, archive=archive)
    compare("the archive", (other / "lib" / "libclickpull.a").read_bytes() == archive.read_bytes(), True)
    it.calls(other / "lib" / f"libclickpull.so.{INTERFACE}", f"-Wl,-rpath,{other}/lib")
    for toolchain in (False, True):
        it.alone("--program", first / "bin" / "clickpull", "--archive", archive, "--prefix", first, toolchain=toolchain)
        compare("what is installed over itself", files(first) == wanted, True)


def is_refused(fault: str, it: standin.StandIn, *words: str | Path, searched: str | None = None) -> None:
    """With these words, and without the toolchain, install fails, tells of this fault, and installs nothing. `searched` may be another PATH."""
    prefix = it.folder / "prefix"
    try:
        it.install("--prefix", prefix, *words, toolchain=False, searched=searched)
    except Unmade as told:
        compare(f"whether it tells that {fault}", fault in str(told), True)
    else:
        raise Unmade(f"it is installed, although {fault}")
    compare("whether something is installed", prefix.exists(), False)


def wrong_files_are_refused(folder: Path) -> None:
    """An archive that lacks the heap is refused without the toolchain, and so is what is no archive, and another program."""
    it = standin.made(folder / "made")
    is_refused("built.a lacks the toolchain's heap", it)
    is_refused("file format not recognized", it, "--archive", standin.INSTALL)
    it.install("--prefix", folder / "other")
    combined = folder / "other" / "lib" / "libclickpull.a"
    another = standin.program("another", folder / "another")
    is_refused("says that it is another, and not clickpull", it, "--archive", combined, "--program", another)


def compiler_is_needed(folder: Path) -> None:
    """Without a C compiler install says so, and installs nothing: an archive would lack the header's calls."""
    empty = folder / "empty"
    empty.mkdir()
    is_refused("cc, a C compiler, isn't on the PATH", standin.made(folder / "made"), searched=str(empty))


TESTS: dict[str, Callable[[Path], None]] = {
    "a prefix with a space": spaces_are_kept,
    "members of one name": members_are_kept,
    "uninstall": what_is_installed_is_removed,
    "a link at a path of ours": links_are_replaced,
    "an archive with the heap": toolchain_is_spared,
    "wrong files": wrong_files_are_refused,
    "no C compiler": compiler_is_needed,
}

"""A kit made of links to the installed one, whose `rt try` builds in less time.

The kit's `rt try` has clang write the checks of the address sanitizer and compile them on one processor, which takes about as
long as all else, and there is no option against it. So here are the kit's own scripts, links to all its other files, an empty
archive in place of the sanitizer's library, and scripts in place of clang and of the linker: where the sanitizer is wanted, the
first has the kit's linker compile the module on four processors, without the sanitizer and without optimizing, and the second
keeps the program that is linked, which `rt try` removes as soon as it has run. This knows where the kit has those. Where they
aren't there, no kit is made.
"""

import pathlib
import shutil

CLANG, LINKER, LIBRARY = "toolchain/bin/clang", "toolchain/bin/ld.lld", "c/asan.a"
CLANG_SCRIPT = """#!/usr/bin/env bash
# In place of clang: a module for which the sanitizer is wanted is compiled by the linker, which does it in parts side by side.
is_sanitized= from= to= before=
for word in "$@"; do
  case $before in
    ir) from=$word ;;
    -o) to=$word ;;
  esac
  if [ "$word" = -fsanitize=address ]; then
    is_sanitized=yes
  fi
  before=$word
done
if [ -n "$is_sanitized" ] && [ -n "$from" ] && [ -n "$to" ]; then
  exec "{linker}" -m elf_x86_64 -r --lto-O0 --lto-CGO0 --lto-partitions=4 -mllvm -trap-unreachable \\
    -mllvm -relocation-model=pic "$from" -o "$to"
fi
exec "{clang}" "$@"
"""
LINKER_SCRIPT = """#!/usr/bin/env bash
# In place of the linker: the program that it links is kept.
"{linker}" "$@" || exit
before=
for word in "$@"; do
  if [ "$before" = -o ] && [ "${{word##*/}}" = program ]; then
    ln -f "$word" "{kept}"
  fi
  before=$word
done
"""
EMPTY_ARCHIVE = b"!<arch>\n"


def installed_kit():
    """The folder of the kit whose `rt` is called, if it is laid out as this needs it."""
    command = shutil.which("rt")
    kit = pathlib.Path(command).resolve().parent.parent if command else None
    has_all = kit and all((kit / it).is_file() for it in ("bin/rt", CLANG, LINKER, LIBRARY))
    return kit if has_all else None


def link_all(source, to, is_own):
    """Makes a folder of links to what is in another, but for what is to be one's own."""
    to.mkdir()
    for it in source.iterdir():
        if not is_own(it):
            (to / it.name).symlink_to(it)


def is_script(file):
    """Whether a file is a text, which finds the kit by the folder that it lies in."""
    with file.open("rb") as it:
        return it.read(4) != b"\x7fELF"


def write_script(file, text):
    """Writes a script that may be run."""
    file.write_text(text)
    file.chmod(0o755)


def link_kit(kit, to, kept):
    """Makes the kit of links, by which programs are kept at a path, and answers its command `rt`."""
    own_tools = [pathlib.Path(it).name for it in (CLANG, LINKER)]
    link_all(kit, to, lambda it: it.name in ("bin", "c", "toolchain"))
    link_all(kit / "bin", to / "bin", is_script)
    for it in filter(is_script, (kit / "bin").iterdir()):
        shutil.copy(it, to / "bin")
    link_all(kit / "c", to / "c", lambda it: it.name == pathlib.Path(LIBRARY).name)
    (to / LIBRARY).write_bytes(EMPTY_ARCHIVE)
    link_all(kit / "toolchain", to / "toolchain", lambda it: it.name == "bin")
    link_all(kit / "toolchain/bin", to / "toolchain/bin", lambda it: it.name in own_tools)
    write_script(to / CLANG, CLANG_SCRIPT.format(clang=kit / CLANG, linker=kit / LINKER))
    write_script(to / LINKER, LINKER_SCRIPT.format(linker=kit / LINKER, kept=kept))
    return to / "bin/rt"

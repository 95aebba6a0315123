"""When firmware/build makes the object of the monitor again, and what it refuses: what tests/on_hart/run.py tries of the build."""
import os
import shutil
import subprocess
from pathlib import Path

from edits import FIRMWARE, TOP, edited

# A copy of what memory.c had: gcc makes a call of memcpy of it where it compiles for size.
LINE = "struct line { uint64_t words[8]; };\n/* Copies by rising"
BY_LINES = "*(struct line *)t = *(const struct line *)f;"


def stand_in(path, text):
    path.write_text(f"#!/bin/sh\n{text}\n")
    path.chmod(0o755)


def made_again(folder, told):
    """The object is made again after each tool that makes it has changed, and not before."""
    place, kit = folder / "again", folder / "kit"
    real = Path(os.path.realpath(shutil.which("rt"))).parents[1]
    shutil.copytree(FIRMWARE, place / "firmware", ignore=shutil.ignore_patterns("out"))
    (place / "crates").mkdir()
    (place / "crates.txt").write_text("")
    (place / "tools").mkdir()
    (place / "include").symlink_to(TOP / "include")
    for name in ("bin", "toolchain/bin"):
        (kit / name).mkdir(parents=True)
    stand_in(kit / "bin/rt", "exit 1")
    stand_in(kit / "toolchain/bin/clang", "exit 1")
    shutil.copy(real / "KIT-ID", kit / "KIT-ID")
    module = os.environ.get("PMPMON_MODULE", str(FIRMWARE / "out/monitor.o"))
    stand_in(place / "tools/module_of", 'touch "$2"')
    stand_in(place / "tools/retarget", f'cp "{module}" "$2"; echo made >>"{place}/log"')
    words = {**os.environ, "PATH": f"{kit}/bin:{os.environ['PATH']}", "IMAGE": "pmpmon-virt.elf"}
    words.pop("PMPMON_MODULE", None)
    counts = []
    for change in (None, None, "tools/retarget", "tools/module_of", "KIT-ID", "toolchain/bin/clang", "crates.txt"):
        if change:
            path = (kit if (kit / change).exists() else place) / change
            path.write_text(path.read_text() + "# other\n")
        subprocess.run([place / "firmware/build"], env=words, check=True, capture_output=True)
        counts.append((place / "log").read_text().count("made"))
    told("the object is made again after its tools, the kit, its compiler or a crate has changed, and not before", counts == [1, 1, 2, 3, 4, 5, 6], str(counts))


def builds(folder, told, boots):
    """`boots` tries an image."""
    made_again(folder, told)
    image = edited(FIRMWARE / "platform.toml", folder / "small", flags="-Os")
    told("the host runs above a monitor that is compiled for size", boots(image))
    words = [("memory.c", "/* Copies by rising", LINE), ("memory.c", "            EACH_OF_8(COPY)\n", f"            {BY_LINES}\n")]
    try:
        edited(FIRMWARE / "platform.toml", folder / "calls", *words, flags="-Os -Wno-unused-macros")
        refused = False
    except subprocess.CalledProcessError:
        refused = not (folder / "calls/pmpmon-virt.elf").exists()
    told("an image whose memcpy calls memcpy is refused", refused)

"""Builds of the firmware with a few lines of its sources replaced: what a test of tests/on_hart/run.py has to notice."""
import os
import shutil
import subprocess
from pathlib import Path

TOP = Path(__file__).resolve().parents[2]
FIRMWARE = TOP / "firmware"


def edited(platform, out, *edits, flags=""):
    """The image of the sources with these edits: each is a file, a text that it has once, and the text in its place."""
    place = out.with_name(f"{out.name}-sources")
    shutil.copytree(FIRMWARE, place / "firmware", ignore=shutil.ignore_patterns("out"), dirs_exist_ok=True)
    for name in ("include", "tools", "CHANGELOG.md"):
        (place / name).symlink_to(TOP / name)
    for name, text, instead in edits:
        path = place / "firmware" / name
        source = path.read_text()
        if source.count(text) != 1:
            raise ValueError(f"{name} has this {source.count(text)} times: {text}")
        path.write_text(source.replace(text, instead))
    module = os.environ.get("PMPMON_MODULE", str(FIRMWARE / "out/monitor.o"))
    subprocess.run([place / "firmware/build", platform, out], check=True, env={**os.environ, "PMPMON_MODULE": module, "CFLAGS": flags, "IMAGE": "pmpmon-virt.elf"})
    return out / "pmpmon-virt.elf"

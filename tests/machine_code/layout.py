"""Reads the layouts of structs and variables, and the values of enumerators, from the firmware's own sources.

Each C file of firmware/ is compiled to DWARF with the flags of firmware/build. So no offset, size or count is typed again in a fact, and
a field that moves is followed. The `.equ` constants of trap.S are read as text.
"""
import re
import subprocess
import tempfile
from pathlib import Path
from types import SimpleNamespace

from elftools.elf.elffile import ELFFile

GCC = "riscv64-unknown-elf-gcc"
FLAGS = ["-march=rv64imac_zicsr_zifencei", "-mabi=lp64", "-mcmodel=medany", "-std=gnu11", "-O2", "-ffreestanding", "-fno-builtin",
         "-fno-tree-loop-distribute-patterns", "-fno-strict-aliasing", "-DSTACK_MARK=0x5a5a5a5a5a5a5a5a", "-DHEAP_SIZE=(192ul<<10)"]


class Layout:
    """`structs` maps a name to its fields' offsets, with `size_of` for its size; `constants` has enumerators; `variables` maps a name to the
    size of an element and the number of elements."""

    def __init__(self, sources, entries=16):
        self.structs, self.constants, self.variables = {}, {}, {}
        with tempfile.TemporaryDirectory() as folder:
            made = Path(folder) / "layout.elf"
            done = subprocess.run([GCC, *FLAGS, f"-DENTRIES={entries}", "-g", "-fno-eliminate-unused-debug-types", f"-I{sources}", "-nostdlib",
                                   "-static", "-Wl,-e0,-Ttext=0x10000,--unresolved-symbols=ignore-all,--no-warn-rwx-segments", "-o", str(made),
                                   *map(str, sorted(Path(sources).glob("*.c")))], capture_output=True, text=True)
            if done.returncode:
                raise SystemExit(f"machine_code: the firmware does not compile for its layouts:\n{done.stderr}")
            with made.open("rb") as file:  # linked, since Debian's pyelftools knows no relocations of RISC-V
                for unit in ELFFile(file).get_dwarf_info().iter_CUs():
                    self.read(unit.get_top_DIE())
        self.assembly = equates((Path(sources) / "trap.S").read_text())

    def read(self, die):
        """Notes what an entry of DWARF and those below it declare."""
        name = text_of(die)
        if die.tag == "DW_TAG_structure_type" and "DW_AT_byte_size" in die.attributes:
            fields = list(fields_of(die, 0))
            if name:
                self.structs[name] = SimpleNamespace(size_of=die.attributes["DW_AT_byte_size"].value, **dict(fields))
        elif die.tag == "DW_TAG_enumerator":
            self.constants[name] = die.attributes["DW_AT_const_value"].value
        elif die.tag == "DW_TAG_variable" and name and "DW_AT_type" in die.attributes and is_static(die):
            self.variables.setdefault(name, shape_of(die.get_DIE_from_attribute("DW_AT_type")))
        for child in die.iter_children():
            self.read(child)

    def __getattr__(self, name):
        """`layout.world.cause` is the offset of a field."""
        structs = self.__dict__.get("structs", {})
        if name in structs:
            return structs[name]
        raise AttributeError(name)


def text_of(die):
    return die.attributes["DW_AT_name"].value.decode() if "DW_AT_name" in die.attributes else ""


def is_static(die):
    """Whether a variable has an address of its own, or is declared as one that has."""
    place = die.attributes.get("DW_AT_location")
    return "DW_AT_external" in die.attributes or place is not None and isinstance(place.value, list) and place.value[:1] == [3]


def fields_of(die, base):
    """The fields of a struct with their offsets, those of unnamed unions included."""
    for member in die.iter_children():
        if member.tag != "DW_TAG_member":
            continue
        at = base + (member.attributes["DW_AT_data_member_location"].value if "DW_AT_data_member_location" in member.attributes else 0)
        if text_of(member):
            yield text_of(member), at
        else:
            yield from fields_of(member.get_DIE_from_attribute("DW_AT_type"), at)


def shape_of(die):
    """The size of an element and the number of elements of a type; what is no array has one."""
    while die.tag in ("DW_TAG_typedef", "DW_TAG_const_type", "DW_TAG_volatile_type"):
        if "DW_AT_type" not in die.attributes:
            return 0, 1
        die = die.get_DIE_from_attribute("DW_AT_type")
    if die.tag == "DW_TAG_array_type":
        counts = [it.attributes["DW_AT_upper_bound"].value + 1 if "DW_AT_upper_bound" in it.attributes else 0
                  for it in die.iter_children() if it.tag == "DW_TAG_subrange_type"]
        size, inner = shape_of(die.get_DIE_from_attribute("DW_AT_type"))
        size *= inner
        for count in counts[1:]:
            size *= count
        return size, counts[0] if counts else 1
    return (die.attributes["DW_AT_byte_size"].value if "DW_AT_byte_size" in die.attributes else 0), 1


def equates(text):
    """The values of `.equ NAME, EXPRESSION`."""
    found = {}
    for name, expression in re.findall(r"(?m)^\s*\.equ\s+(\w+),\s*([^#\n]+)", text):
        if re.fullmatch(r"[\w\s+*<|()-]+", expression):
            try:
                found[name] = eval(expression, {"__builtins__": {}}, dict(found))  # names, numbers and operators alone
            except NameError:
                pass
    return SimpleNamespace(**found)

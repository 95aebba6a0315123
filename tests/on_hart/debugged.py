"""What a debugger sees of harts that it lets go on one by one: what tests/on_hart/run.py tries of firmware/harts.c and serve.c."""
import subprocess

from resets import symbol
from wires import Debugger, Wired


def late_hart(image, payload):
    """A hart that does not run for more than ten seconds while it is to stop is waited for, and no entry changes before it stops."""
    with Wired(image, payload, 2, "-S") as board:
        with Debugger(board.place / "gdb") as debugger:
            debugger.comes_to(symbol(image, "stop_harts"), 3)  # (twice as the monitor boots)
            debugger.goes_on(11.5, 0)
            waits = board.until("hart 1\n", 5)
            before = board.said
        right = waits and board.has_ended() and before == "monitor: waits for a hart to stop: hart 1\n" and board.said == before + "faults\n"
        return right, repr(board.said)


def state_of_stopping_hart(image, payload):
    """A hart that stops is at no moment one that is about to start: it leaves `pending` before `started`."""
    words = symbol(image, "harts")
    with Wired(image, payload, 4, "-S") as board:
        with Debugger(board.place / "gdb") as debugger:
            started, stopped, wrong = 1, 0, 0
            for _ in range(400):
                debugger.is_written(words + 8)
                now, pending = debugger.word(words + 8), debugger.word(words + 16)
                stopped += bin(started & ~now).count("1")
                wrong += started & ~now & pending != 0
                started = now
                if stopped == 4:
                    break
        return stopped == 4 and not wrong, f"{stopped} stopped, {wrong} wrong"


def measured_page(image, payload):
    """While the first page of a new enclave is read, another hart tries to write it, and none of its stores is done."""
    tries, writes = symbol(payload, "tries"), symbol(payload, "writes")
    with Wired(image, payload, 2, "-S") as board:
        with Debugger(board.place / "gdb") as debugger:
            debugger.comes_to(symbol(image, "read_page"), 5)  # (two pages of each enclave that nobody writes, and the first of the next)
            debugger.goes_on(0.1, 1)
            before = debugger.word(tries), debugger.word(writes)
            debugger.goes_on(0.5, 1)
            after = debugger.word(tries), debugger.word(writes)
        right = after[0] > before[0] + 10 and after[1] == before[1] and board.has_ended(120)
        return right and board.said.endswith("wrong 0\n"), f"{before} {after} {board.said!r}"


def memory_types(image, payload):
    """On a hart that has Svpbmt its bit in menvcfg is zero, and the host's tree does not name it."""
    with Wired(image, payload, 1, "-cpu", "rv64,svpbmt=on", kind=5) as board:
        board.until("it waits\n")
        with Debugger(board.place / "gdb") as debugger:
            word = debugger.control_register("menvcfg")
        at = board.memory()[0x7E00000:]
        tree = subprocess.run(["dtc", "-q", "-I", "dtb", "-O", "dts"], input=at, capture_output=True).stdout.decode()
        isa = next((it.strip() for it in tree.splitlines() if "riscv,isa" in it), "")
        return not word >> 62 & 1 and word >> 63 == 1 and ("svpbmt" not in isa) and ("rv64" in isa or not tree), f"{word:#x} {isa}"

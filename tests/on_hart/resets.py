"""What is left of an enclave's secret after each end of the board: what tests/on_hart/run.py tries of firmware/reset.c."""
import os
import re
import subprocess
from concurrent.futures import ThreadPoolExecutor

from wires import Wired

SECRET, SECRET_AT = 0x5EC2E75EC2E7, 0x85001000
COLD, WARM, SHUTDOWN, FINISHER, WAITS = range(1, 6)
BEGUN = "create 0\n{run}before it: fault 5\n"
AFTER = "after it: fault 0\nthe secret 0\n"


def symbol(image, name):
    """The address of a name in an image."""
    lines = subprocess.run(["riscv64-unknown-elf-nm", image], capture_output=True, text=True, check=True).stdout.splitlines()
    return next(int(it.split()[0], 16) for it in lines if it.split()[2] == name)


def is_left(memory, number):
    """Whether the secret is anywhere in memory."""
    return number.to_bytes(8, "little") in memory


def numbers_in(memory):
    """Where memory has numbers of secrets_enclave.S, each with its last byte: that of a register from 0 on, and 64 more for f0 to f31."""
    return [(it.start(), memory[it.start()]) for it in re.finditer(b".." + re.escape(b"\xe7\xc2\x5e\xe7\xc2\x5e"), memory, re.S)]


def asked_for(image, payload, harts, kind, more=""):
    """The host asks for the reset, and looks for the secret after it."""
    begun = BEGUN.format(run="run 1\n" if harts == 1 else "") + more
    with Wired(image, payload, harts, kind=kind) as board:
        right = board.has_ended() and board.said == begun + AFTER and not is_left(board.memory(), SECRET)
        return right, repr(board.said)


def off(image, payload, harts):
    """The host switches the board off: its memory is looked at from outside."""
    begun = BEGUN.format(run="run 1\n" if harts == 1 else "")
    with Wired(image, payload, harts, kind=SHUTDOWN) as board:
        return board.has_ended() and board.said == begun and not is_left(board.memory(), SECRET), repr(board.said)


def button(image, payload, harts):
    """The board is reset from outside while the enclave runs."""
    with Wired(image, payload, harts, kind=WAITS) as board:
        begun = board.until("it waits\n") and board.word(SECRET_AT) == SECRET
        board.asked("system_reset")
        right = begun and board.has_ended() and board.said.endswith("it waits\n" + AFTER) and not is_left(board.memory(), SECRET)
        return right, repr(board.said)


def fatal(image, payload, harts, function, offset):
    """The monitor itself traps: code of its own was overwritten with an illegal instruction, so many bytes into a function."""
    with Wired(image, payload, harts, kind=WAITS) as board:
        begun = board.until("it waits\n") and board.word(SECRET_AT) == SECRET
        board.written(symbol(image, function) + offset, bytes(8))
        right = begun and board.has_ended() and "\nmonitor: trapped 0x0000000000000002 " in board.said and not is_left(board.memory(), SECRET)
        return right, repr(board.said)


def left_after(image, payload, kind):
    """An enclave exits (1) or is destroyed (2), or the host ends the board (4): whether that happened, and the enclave's registers in memory."""
    said = {1: "run 0\nit waits\n", 2: "run 1\ndestroy 0\nit waits\n", 4: "run 1\n"}[kind]
    with Wired(image, payload, 1, kind=kind) as board:
        ended = board.has_ended() if kind == 4 else board.until("it waits\n")
        return ended and board.said == said, numbers_in(board.memory()), repr(board.said)


def registers(image, payload, kind):
    """None of an enclave's registers is left in memory after its end."""
    happened, left, said = left_after(image, payload, kind)
    return happened and not left, f"{said} {left}"


def all_slots(image, payload):
    """The reset button, while each of 64 enclaves that lie side by side has a secret."""
    with Wired(image, payload, 1) as board:
        begun = board.until("it waits\n")
        count = board.memory()[0x5000000:].count(SECRET.to_bytes(8, "little"))
        board.asked("system_reset")
        right = begun and count == 64 and board.has_ended() and board.said == "it waits\nafter it\n" and not is_left(board.memory(), SECRET)
        return right, f"{board.said!r} {count}"


def absent_memory(image, payload):
    """The list of private pages names memory that the board has not: a fault there leaves no other page as it is, and is not met again."""
    first, count = 0x90000, 2
    with Wired(image, payload, 1) as board:
        begun = board.until("it waits\n")
        words = (first, count, first ^ count << 32 ^ 0x70726976617465)
        board.written(symbol(image, "private_ranges") + 24 * 10, b"".join(it.to_bytes(8, "little") for it in words))
        board.written(0x85000000 + 4096 * 21, bytes(8))  # (the enclave that lost its place in the list)
        board.asked("system_reset")
        ended = board.has_ended()
        memory = board.memory()
        listed = [it for it in range(64) if memory[0x7F000 + 24 * it + 16 : 0x7F000 + 24 * it + 24] != bytes(8)]
        right = begun and ended and board.said.startswith("it waits\nmonitor: trapped 0x0000000000000007 ") and not is_left(memory, SECRET) and not listed
        return right, f"{board.said!r} {listed}"


def saved_registers(image, payload):
    """An enclave has just been stopped: s1 to s11, which C saves, are in its set alone. (A frame of the loop has a0 to a7.)"""
    with Wired(image, payload, 1, kind=3) as board:
        begun = board.until("it waits\n")
        found, at = numbers_in(board.memory()), symbol(image, "register_sets") - 0x80000000 + 528 * 4
        left = [(place, it) for place, it in found if not at <= place < at + 528 and it in (9, *range(18, 28))]
        return begun and len(found) >= 62 and not left, f"{board.said!r} {left}"


# Of trap.S, what no world's trap comes to: how a hart comes in for the first time, what follows a trap of the monitor, and a count for traces.
NOT_MET = ("enter_as_trapped", "died", "instructions")


def instructions_of(image):
    """The address of each instruction of trap.S, with the name before it and its text. The first two of a trap are left out: a trap in them
    comes to them again, on any hart."""
    text = subprocess.run(["riscv64-unknown-elf-objdump", "-d", "--no-show-raw-insn", image], capture_output=True, text=True, check=True).stdout
    part = text.split(" <run_world>:\n")[1].split(" <load_bank>:\n")[0]
    name, found = "run_world", []
    for line in part.splitlines():
        if match := re.match(r"[0-9a-f]+ <(\w+)>:", line):
            name = match[1]
        elif (match := re.match(r" *([0-9a-f]+):\t(.*)", line)) and name not in NOT_MET and match[2] != "nop":
            found.append((int(match[1], 16), name, match[2]))
    first = next(i for i, it in enumerate(found) if it[1] == "trap")
    return found[:first] + found[first + 2 :]


def injected(image, payload, address):
    """The monitor traps at an instruction while four harts take every way through it."""
    with Wired(image, payload, 4) as board:
        begun = board.until("it waits\n")
        board.written(address, bytes(2))
        right = begun and board.has_ended() and "\nmonitor: trapped 0x0000000000000002 " in board.said and not is_left(board.memory(), SECRET)
        return right, f"{board.said!r}"


def each_instruction(image, payload, told):
    """Each instruction of trap.S, or one of EVERY (1: all; 8 if it is not given)."""
    every = int(os.environ.get("EVERY", "8"))
    always = ("drawn", "take_monitor", "wait_for_call", "wake_called")
    found = [it for i, it in enumerate(instructions_of(image)) if i % every == 0 or it[1] in always or it[2].startswith(("fence", "jal", "csrrw", "li\ts1,"))]
    with ThreadPoolExecutor(max_workers=2) as boards:
        done = list(boards.map(lambda it: injected(image, payload, it[0]), found))
    wrong = [f"{it[1]}: {it[2]}: {why}" for it, (right, why) in zip(found, done) if not right]
    told(f"a fatal end at each of {len(found)} instructions of trap.S, which four harts execute: nothing of an enclave is left", found and not wrong, "; ".join(wrong[:3]))


def resets(images, payloads, wide, secrets, slots, told):
    """`images` and `payloads` are of one hart and of two, and `wide` is of more memory than the board has."""
    rows = [(f"the registers of an enclave {what}", registers, (images[0], secrets, kind)) for kind, what in ((1, "that exits"), (2, "that is destroyed"), (4, "when the host ends the board"))]
    rows += [("the saved registers of an enclave that was stopped, but in its set", saved_registers, (images[0], secrets))]
    rows += [("the reset button, 64 enclaves", all_slots, (images[0], slots)), ("a list that names absent memory, after the button", absent_memory, (wide, slots))]
    for harts, image, payload in zip((1, 2), images, payloads):
        rows += [(f"a cold reboot, {harts} harts", asked_for, (image, payload, harts, COLD)), (f"the board is switched off, {harts} harts", off, (image, payload, harts))]
        rows += [(f"the reset button, {harts} harts", button, (image, payload, harts))]
    rows += [("a warm reboot", asked_for, (images[0], payloads[0], 1, WARM))]
    rows += [("a store to the finisher", asked_for, (images[0], payloads[0], 1, FINISHER, "the finisher: fault 7\n"))]
    # (in run_world the hart has the lock and is no longer halted; past the place of mscratch in enter_world a trap goes the way of a world's)
    for function, offset in (("load_changes", 0), ("serve_alone", 0), ("run_world", 0), ("enter_world", 20), ("enter_world", 144)):
        rows += [(f"a fatal end in {function} + {offset}, {harts} harts", fatal, (images[harts - 1], payloads[harts - 1], harts, function, offset)) for harts in (1, 2)]
    with ThreadPoolExecutor(max_workers=3) as boards:
        for (name, _, _), (right, why) in zip(rows, boards.map(lambda it: it[1](*it[2]), rows)):
            told(f"{name}: nothing of an enclave is left", right, "" if right else why)

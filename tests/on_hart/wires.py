"""A board of QEMU that is looked at and reset from outside: its monitor's button, its memory, and a debugger that writes into it."""
import json
import os
import re
import select
import socket
import subprocess
import tempfile
import time
from pathlib import Path

QEMU = "qemu-system-riscv64"
# The line that the boot prints before it enters the host.
START = re.compile(r"^monitor: pmpmon \d+\.\d+\.\d+, ([1-4]) harts?, (16|64) entries; (the host is|no host is loaded) at (0x[0-9a-f]{16})\n", re.M)


def without_start(said):
    """What a board says after that line."""
    return START.sub("", said)


class Wired:
    """A board, and wires to it."""

    def __init__(self, image, payload, harts, *more, kind=0):
        self.folder = tempfile.TemporaryDirectory()
        place = Path(self.folder.name)
        board = [QEMU, "-machine", "virt,memory-backend=memory", "-smp", str(harts), "-m", "128", "-display", "none", "-serial", "stdio", "-bios", str(image)]
        board += ["-object", f"memory-backend-file,id=memory,size=128M,mem-path={place}/memory,share=on"]
        board += ["-device", f"loader,file={payload}", "-device", f"loader,addr=0x86001000,data={kind},data-len=8"]
        board += ["-qmp", f"unix:{place}/qmp,server=on,wait=off", "-chardev", f"socket,path={place}/gdb,server=on,wait=off,id=gdb0", "-gdb", "chardev:gdb0", "-S", *more]
        self.process = subprocess.Popen(board, stdin=subprocess.DEVNULL, stdout=subprocess.PIPE)
        self.said, self.place = "", place

    def __enter__(self):
        end = time.monotonic() + 30
        self.qmp = socket.socket(socket.AF_UNIX)
        while self.qmp.connect_ex(str(self.place / "qmp")) and time.monotonic() < end:
            time.sleep(0.02)
        while not (self.place / "gdb").exists() and time.monotonic() < end:
            time.sleep(0.02)
        self.lines = self.qmp.makefile("r")
        self.lines.readline()
        self.asked("qmp_capabilities")
        self.asked("cont")  # a board that ends at once would be gone before the wires are there
        return self

    def __exit__(self, *_):
        self.process.kill()
        self.process.wait()
        self.process.stdout.close()
        self.qmp.close()
        self.folder.cleanup()

    def asked(self, command, **words):
        """What QEMU's monitor answers."""
        self.qmp.sendall(json.dumps({"execute": command, **({"arguments": words} if words else {})}).encode() + b"\n")
        while True:
            answer = json.loads(self.lines.readline())
            if "event" not in answer:
                return answer.get("return")

    def memory(self):
        """All of memory, which is there after the board's end too."""
        return (self.place / "memory").read_bytes()

    def word(self, address):
        """A word of memory, which is there after the board's end too."""
        with (self.place / "memory").open("rb") as memory:
            memory.seek(address - 0x80000000)
            return int.from_bytes(memory.read(8), "little")

    def written(self, address, data):
        """A debugger writes bytes into memory, and the board goes on."""
        with Debugger(self.place / "gdb") as debugger:
            debugger.write(address, data)

    def until(self, text, seconds=60):
        """Whether a text is said in time."""
        end = time.monotonic() + seconds
        while text not in self.said and time.monotonic() < end:
            if select.select([self.process.stdout], [], [], 0.2)[0]:
                some = os.read(self.process.stdout.fileno(), 4096)
                if not some:
                    break
                self.said = without_start(self.said + some.decode("latin-1").replace("\r", ""))
        return text in self.said

    def has_ended(self, seconds=60):
        """Whether the board went off in time."""
        self.until("\0", seconds)
        try:
            return self.process.wait(5) is not None
        except subprocess.TimeoutExpired:
            return False


class Debugger:
    """What gdb says to QEMU: memory is looked at and written at physical addresses, and harts go on or stand still. The board stands still
    from the first word on, and goes on at the end."""

    def __init__(self, path):
        self.wire = socket.socket(socket.AF_UNIX)
        self.wire.connect(str(path))
        self.wire.settimeout(60)

    def __enter__(self):
        self.packet("?")
        self.send("Qqemu.PhyMemMode:1")
        while self.reply() != "OK":  # (a board that ran says that it stops, too)
            pass
        return self

    def __exit__(self, *_):
        self.send("D")
        self.wire.close()

    def send(self, text):
        self.wire.sendall(b"$%s#%02x" % (text.encode(), sum(text.encode()) % 256))

    def reply(self):
        """The next packet, which is acknowledged."""
        answer = b""
        while not (answer[-3:-2] == b"#" and b"$" in answer):
            some = self.wire.recv(1)
            if not some:
                return ""
            answer += some
        self.wire.sendall(b"+")
        return answer[answer.index(b"$") + 1 : -3].decode("latin-1")

    def packet(self, text):
        self.send(text)
        return self.reply()

    def write(self, address, data):
        self.packet(f"M{address:x},{len(data):x}:{data.hex()}")

    def word(self, address):
        return int.from_bytes(bytes.fromhex(self.packet(f"m{address:x},8")), "little")

    def control_register(self, name):
        """A control register of the first hart."""
        self.packet("qXfer:features:read:target.xml:0,400")
        text, part = "", "m"
        while part.startswith("m"):
            part = self.packet(f"qXfer:features:read:riscv-csr.xml:{len(text):x},400")
            text += part[1:]
        number = re.search(rf'name="{name}"[^>]*regnum="(\d+)"', text)[1]
        return int.from_bytes(bytes.fromhex(self.packet(f"p{int(number):x}")), "little")

    def comes_to(self, address, times=1):
        """The board goes on until a hart has come to an address so often."""
        self.packet(f"Z1,{address:x},4")
        for left in range(times - 1, -1, -1):
            thread = re.search("thread:([0-9a-f]+)", self.packet("vCont;c"))[1]
            self.packet(f"z1,{address:x},4")
            if left:
                self.packet(f"vCont;s:{thread}")
                self.packet(f"Z1,{address:x},4")

    def is_written(self, address):
        """The board goes on until a hart has written a word."""
        self.packet(f"Z2,{address:x},8")
        thread = re.search("thread:([0-9a-f]+)", self.packet("vCont;c"))[1]
        self.packet(f"z2,{address:x},8")
        self.packet(f"vCont;s:{thread}")

    def goes_on(self, seconds, *harts):
        """Some harts go on for a time, while the others stand still."""
        self.send("vCont;" + ";".join(f"c:{hart + 1:x}" for hart in harts))
        time.sleep(seconds)
        self.wire.sendall(b"\x03")
        return self.reply()

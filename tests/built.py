"""The words that run a built program: the programs are for x86-64, and on another processor the emulator of the kit that
was used up to the port ran them."""
import os
import subprocess

MACHINE = os.uname().machine
# How much longer a run may take there.
SLOWER = 1 if MACHINE == "x86_64" else 10


def words(program):
    program = os.path.abspath(program)
    if MACHINE == "x86_64":
        return [program]
    guide = subprocess.run(["rt", "doc"], capture_output=True, text=True, check=True).stdout.strip()
    tools = os.path.join(os.path.dirname(os.path.dirname(guide)), "on", MACHINE, "toolchain")
    library = os.path.join(tools, "lib")
    return [os.path.join(tools, "bin", "qemu-x86_64"), os.path.join(library, "ld-linux-x86-64.so.2"), "--library-path", library, program]

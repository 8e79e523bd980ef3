"""The machines that the firmware is built for: what each one needs here, and the words that build it and start it."""

import dataclasses
import os
import shutil
import subprocess

from lib.bare import board, faults, machine


@dataclasses.dataclass
class Kind:
    name: str
    target: str
    folder: str
    compiler: str
    words: tuple
    file: str
    emulator: tuple
    power: object
    faults: tuple
    # How many thousandths of a second, or calls of the device, the first starts and those of a recovery have at most until the power goes.
    laying: int
    recovery: int
    least: int = 0

    def lacks(self):
        """The first program that is not here, or nothing."""
        missing = next((it for it in (self.emulator[0], self.compiler) if not shutil.which(it)), "")
        return missing or ("newlib" if self.compiler == CORTEX and not has_newlib() else "")


def has_newlib():
    """Whether the compiler for Arm knows where its C library is: it answers a bare name where it does not."""
    words = [CORTEX, "-mcpu=cortex-m4", "-mthumb", "-print-file-name=libc.a"]
    return os.path.isabs(subprocess.run(words, check=True, stdout=subprocess.PIPE, text=True).stdout.strip())


AARCH64 = ("qemu-system-aarch64", "-M", "virt", "-cpu", "cortex-a53")
RISCV32 = ("qemu-system-riscv32", "-M", "virt", "-bios", "none")
CORTEX, THUMB = "arm-none-eabi-gcc", "thumbv7em-none"

KINDS = (
    Kind("aarch64-linux-gnu", "aarch64-linux-gnu", "bare", "aarch64-linux-gnu-gcc", (), "disk.elf", AARCH64, machine.Power, faults.AARCH64, 8, 8),
    Kind("aarch64-none", "aarch64-none", "bare", "aarch64-linux-gnu-gcc", ("TARGET=aarch64-none",), "disk.elf", AARCH64, machine.Power, (), 8, 8),
    Kind("Cortex-M4", THUMB, "cortex-m", CORTEX, ("BOARD=mps2-an386",), "disk.bin", ("qemu-system-arm", "-M", "mps2-an386"), board.Power, faults.CORTEX, 60, 10, 50),
    Kind("Cortex-M7", THUMB, "cortex-m", CORTEX, ("BOARD=mps2-an500",), "disk.bin", ("qemu-system-arm", "-M", "mps2-an500"), board.Power, (), 60, 10, 50),
    Kind("RV32", "riscv32imac-none", "riscv32", "riscv64-unknown-elf-gcc", (), "disk.elf", RISCV32, machine.Power, faults.RISCV, 8, 8, 50),
)

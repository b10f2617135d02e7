"""Words by llvm-mc, and what qemu-riscv64 makes of a program: for the scripts that make tables of cases."""
import os, struct, subprocess, tempfile


def packed(numbers, bits):
    return b"".join((n % (1 << bits)).to_bytes(bits // 8, "little") for n in numbers)


def vtype(bits, eighths):
    return {1: 5, 2: 6, 4: 7, 8: 0, 16: 1, 32: 2, 64: 3}[eighths] | (bits.bit_length() - 4) << 3


def assembled(lines):
    """The words of lines."""
    with tempfile.TemporaryDirectory() as folder:
        source, made, raw = (os.path.join(folder, name) for name in ("source", "made", "raw"))
        open(source, "w").write("\n".join(lines) + "\n")
        subprocess.run(["llvm-mc", "-triple=riscv64", "-mattr=+v,+m", "-filetype=obj", "-o", made, source], check=True)
        subprocess.run(["llvm-objcopy", "-O", "binary", "-j", ".text", made, raw], check=True)
        return [n for n, in struct.iter_unpack("<I", open(raw, "rb").read())]


def by_qemu(program):
    """What the program writes, and how it ends."""
    header = b"\x7fELF\2\1\1" + bytes(9) + struct.pack("<HHIQQQIHHHHHH", 2, 243, 1, 0x10000, 64, 0, 0, 64, 56, 1, 0, 0, 0)
    header += struct.pack("<IIQQQQQQ", 1, 5, 0x1000, 0x10000, 0x10000, len(program), len(program), 4096)
    with tempfile.NamedTemporaryFile(delete=False) as file:
        file.write(header.ljust(0x1000, b"\0") + program)
    os.chmod(file.name, 0o755)
    done = subprocess.run(["qemu-riscv64", "-cpu", "rv64,v=true,vlen=128,elen=64,vext_spec=v1.0", file.name], capture_output=True)
    os.unlink(file.name)
    return done.returncode, done.stdout

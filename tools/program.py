"""The program that the tools run: proved and built first, where it is not."""
import os, subprocess

top = os.path.dirname(os.path.dirname(os.path.abspath(__file__)))


def built():
    """The path of the program. Without words it only writes its usage; before that it is built, which tells its progress on standard error."""
    subprocess.run([f"{top}/rtl_repair"], stdout=subprocess.DEVNULL)
    return f"{top}/crates/rtl_repair/out/rtl_repair"

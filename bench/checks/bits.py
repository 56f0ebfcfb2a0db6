#!/usr/bin/env python3
"""How long a check takes for functions of 10 to 14 choice bits.

usage: bits.py COMMAND      (COMMAND is saturn_check, as bin/saturn_check)

Each function has a lock, a number of 8 bits and 0 to 4 flags; so its choices have 10 to 14 bits. For each the least
processor time of three runs is printed.
"""
import os
import resource
import subprocess
import sys
import tempfile


def source(flags):
    params = "".join(f",_Bool c{i}" for i in range(flags))
    tests = "".join(f"if(c{i})return;" for i in range(flags))
    return (
        "typedef struct{int v;}spinlock_t;\n"
        f"void f(spinlock_t*l,unsigned char x{params})"
        f"{{spin_lock(l);if(x==7)return;{tests}spin_unlock(l);}}\n"
    )


def seconds(command, name):
    before = resource.getrusage(resource.RUSAGE_CHILDREN)
    subprocess.run([*command, name], stdout=subprocess.DEVNULL, check=False)
    after = resource.getrusage(resource.RUSAGE_CHILDREN)
    return after.ru_utime - before.ru_utime


def main():
    if len(sys.argv) < 2:
        sys.exit(__doc__)
    command = [os.path.abspath(sys.argv[1]), *sys.argv[2:]]
    with tempfile.TemporaryDirectory() as folder:
        os.chdir(folder)
        for flags in range(5):
            with open("a.c", "w", encoding="utf-8") as file:
                file.write(source(flags))
            print(f"{10 + flags} bits: {min(seconds(command, 'a.c') for _ in range(3)):.2f} s", flush=True)


if __name__ == "__main__":
    main()

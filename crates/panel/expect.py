#!/usr/bin/env python3
# expect.py [-DEPTH] FILE..: prints what the panel prints for these arguments, as the model of the folder model reckons it, which shares
# nothing with the code. With no argument: writes the file stdout of this folder, for the arguments in args, the files in data and the
# input in stdin.
import os
import sys

HERE = os.path.dirname(os.path.realpath(__file__))
sys.path.insert(0, os.path.join(HERE, os.pardir, os.pardir))

from model import panel


def read(name):
    with open(os.path.join(HERE, name), "rb") as file:
        return file.read()


def write_stdout():
    arguments = read("args").decode().split("\n")[:-1]
    os.chdir(os.path.join(HERE, "data"))
    with open(os.path.join(HERE, "stdout"), "w") as out:
        out.writelines(line + "\n" for line in panel.lines(arguments, lambda: read("stdin")))


if __name__ == "__main__":
    if len(sys.argv) > 1:
        sys.stdout.writelines(line + "\n" for line in panel.lines(sys.argv[1:], sys.stdin.buffer.read))
    else:
        write_stdout()

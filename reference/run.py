#!/usr/bin/env python3
"""The line program as the reference has it: standard input to standard output."""

import sys

import reference as ref


def main():
    printed, status = ref.program(sys.stdin.buffer.read())
    sys.stdout.buffer.write(printed)
    return status


if __name__ == '__main__':
    sys.exit(main())

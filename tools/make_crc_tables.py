#!/usr/bin/env python3
"""Prints the tables of pst_crc/src/table.rt and pst_crc/src/far_table.rt: column i of a row is what a register of 32
bits becomes when the byte i alone leaves it, and so many bytes of 0 after it: k bytes in row k of the first table,
124 + k in row k of the second. The crate's own proof computes them again from the definition."""

POLYNOMIAL = 0xEDB88320


def after_bits(register, count):
    """The register after so many bits have left it."""
    for _ in range(count):
        register = register >> 1 ^ (POLYNOMIAL if register & 1 else 0)
    return register


def show(name, first, count):
    """Prints a table of rows, from the one that so many bytes of 0 follow."""
    print(f"const {name}: [[u32; 256]; {count}] = [")
    for row in range(first, first + count):
        numbers = [f"0x{after_bits(byte, 8 * (row + 1)):08x}" for byte in range(256)]
        print("    [")
        for at in range(0, 256, 7):
            print(f"        {', '.join(numbers[at:at + 7])},")
        print("    ],")
    print("];")


def main():
    show("TABLES", 0, 16)
    show("FAR_TABLES", 124, 4)


if __name__ == "__main__":
    main()

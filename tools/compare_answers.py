#!/usr/bin/env python3
"""Compares what the built program answers over samples/ with samples/answers.json, which another program wrote.

An answer has the sample's name, the words (F stands for the sample), the status, the output (as text, or, where that may be
none, its bytes in hexadecimal; of an archive their SHA-256) and the line on standard error, null where only the status and the output are compared; and
some have changes, bytes in hexadecimal that are set at places in the sample first, or a length, to which it is cut then: such a
sample the program gets on standard input. With words, only the commands that are named are compared; --program names the
program in place of ./pst_show. The status is 0 where all are the same.
"""
import argparse
import hashlib
import json
import os
import subprocess
import sys

ROOT = os.path.dirname(os.path.dirname(os.path.abspath(__file__)))


def changed(answer):
    """The bytes of the sample with the changes of the answer, cut to its length."""
    with open(f"{ROOT}/samples/{answer['file']}", "rb") as file:
        held = bytearray(file.read())
    for place, new in answer.get("changes", []):
        new = bytes.fromhex(new)
        held[place:place + len(new)] = new
    return bytes(held[:answer.get("length")])


def is_output(answer, given):
    """Whether these bytes are what has to come on standard output."""
    if "stdout_sha256" in answer:
        return hashlib.sha256(given).hexdigest() == answer["stdout_sha256"]
    return given == (bytes.fromhex(answer["stdout_hex"]) if "stdout_hex" in answer else answer["stdout"].encode())


def is_same(program, answer):
    """Whether the program answers so; where it doesn't, what it says is printed."""
    held = changed(answer) if "changes" in answer or "length" in answer else None
    name = f"samples/{answer['file']}" if held is None else "-"
    words = [name if word == "F" else word for word in answer["words"]]
    ran = subprocess.run([program, *words], cwd=ROOT, input=held, capture_output=True, check=False)
    line = ran.stderr if answer["stderr"] is None else answer["stderr"].encode()
    same = (ran.returncode, ran.stderr) == (answer["status"], line) and is_output(answer, ran.stdout)
    if not same:
        given = (ran.returncode, ran.stdout[:2000], ran.stderr)
        print(f"{answer['file']} {' '.join(words)} {str(answer.get('changes', ''))[:200]} {answer.get('length', '')}: {given}")
    return same


def main():
    parser = argparse.ArgumentParser(description="Compares the program's answers over samples/ with another program's.")
    parser.add_argument("--program", default=f"{ROOT}/pst_show", help="the program, in place of ./pst_show")
    parser.add_argument("commands", nargs="*", metavar="COMMAND", help="compares the answers to these commands alone")
    given = parser.parse_args()
    with open(f"{ROOT}/samples/answers.json", encoding="utf-8") as file:
        answers = [answer for answer in json.load(file) if not given.commands or answer["words"][0] in given.commands]
    same = sum(is_same(os.path.abspath(given.program), answer) for answer in answers)
    print(f"answers: {same} of {len(answers)} are those of the other program")
    return 0 if same == len(answers) else 1


if __name__ == "__main__":
    sys.exit(main())

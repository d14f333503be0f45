#!/usr/bin/env python3
"""Holds what the program prints against docs/schema/, which has a JSON Schema for each document.

    tools/check_schemas.py [--program PROGRAM]

What is held against them: each document of samples/answers.json, and what the program prints of each sample: each command that
prints JSON, of every node and every folder, with and without --places and --digest; and what it exports, where it has the command. Then each schema has to refuse what is no such
document: in copies of those that it took a key is left out, another is put in, and a value is replaced by one of another kind.
Needed is jsonschema for Python (Debian's python3-jsonschema); where that is not there it is told, nothing is tried, and the status
is 0. Else it is 0 where each document was taken, each other thing refused, and no schema was without a document.
"""
import argparse
import copy
import glob
import io
import json
import os
import subprocess
import sys
import tarfile
import warnings

ROOT = os.path.dirname(os.path.dirname(os.path.abspath(__file__)))
SCHEMAS = os.path.join(ROOT, "docs", "schema")
OF_COMMAND = {"check": "check", "contents": "contents", "damage": "damage", "folders": "folders", "head": "head",
              "messages": "message", "nodes": "nodes", "props": "props"}
WHOLE = {"contents": "contents-whole", "folders": "folders-whole"}
OF_FILE = {"damage.json": "damage", "folders": "props", "folders.json": "folders-whole", "messages.jsonl": "message", "store.json": "props"}
OPTIONAL = ["places", "sha256"]
SPOILT, LONGEST = 6, 1500
OF_KIND = {bool: "yes", int: "7", str: 7, list: {}, dict: [], type(None): -1.5}


def schema_of(words):
    """The name of the schema of what a command line prints; None where that is no JSON."""
    name = OF_COMMAND.get(words[0])
    return WHOLE.get(name, name) if "--whole" in words else name


def validators(draft, resolver):
    """A validator for each schema, each of which has to be one itself. References go from file to file of the folder."""
    found = {}
    for path in sorted(glob.glob(f"{SCHEMAS}/*.json")):
        with open(path, encoding="utf-8") as file:
            schema = json.load(file)
        draft.check_schema(schema)
        found[os.path.basename(path)[:-len(".json")]] = draft(schema, resolver=resolver(f"file://{path}", schema))
    return found


def lines_of(text):
    return [line for line in text.split("\n") if line]


def printed(program, name, command, *flags, behind=()):
    """Each line that a command prints of a file, with its schema's name; none where the file is refused."""
    words = [program, command, "--decode", *flags, name, *behind]
    ran = subprocess.run(words, cwd=ROOT, capture_output=True, check=False)
    return [(OF_COMMAND[command], line) for line in lines_of(ran.stdout.decode())]


def of_sample(program, name):
    """Each line of JSON that the program prints of a sample, with its schema's name."""
    for command in ("check", "damage"):
        yield from printed(program, name, command) + printed(program, name, command, "--digest")
    for command in ("head", "messages"):
        yield from printed(program, name, command)
    nodes, folders = printed(program, name, "nodes"), printed(program, name, "folders")
    yield from nodes + folders
    for node in json.loads(nodes[0][1])["nodes"] if nodes else []:
        for flags in ((), ("--places",)):
            yield from printed(program, name, "props", *flags, behind=[node["nid"]])
    for folder in json.loads(folders[0][1])["folders"] if folders else []:
        yield from printed(program, name, "contents", behind=[folder["nid"]])


def of_export(program, name):
    """The same of each file of JSON that the program exports of a sample."""
    archive = subprocess.run([program, "export", "--decode", "--whole", name], cwd=ROOT, capture_output=True, check=False).stdout
    if not archive:
        return
    with tarfile.open(fileobj=io.BytesIO(archive)) as tar:
        for member in tar:
            parts = member.name.split("/")
            schema = OF_FILE.get(parts[0]) or ("exported-props" if parts[-1] == "props.json" else None)
            if schema and parts[-1].endswith(("json", "jsonl")):
                yield from ((schema, line) for line in lines_of(tar.extractfile(member).read().decode()))


def of_answers():
    """Each line of JSON of samples/answers.json, with its schema's name."""
    with open(f"{ROOT}/samples/answers.json", encoding="utf-8") as file:
        answers = json.load(file)
    for answer in answers:
        name = schema_of(answer["words"])
        if name:
            yield from ((name, line) for line in lines_of(answer["stdout"]))


def spoilt(document, whole, path=()):
    """Copies of `whole` that are no such document any more, with what was done: at each key and item of it."""
    for key in document if isinstance(document, dict) else range(len(document))[:2]:
        def changed(change):
            other = copy.deepcopy(whole)
            inner = other
            for step in path:
                inner = inner[step]
            change(inner)
            return other

        value = document[key]
        where = "/".join(map(str, (*path, key)))
        if isinstance(document, dict) and key not in OPTIONAL:
            yield f"without {where}", changed(lambda inner: inner.pop(key))
        if isinstance(document, dict):
            yield f"with another key beside {where}", changed(lambda inner: inner.update({f"{key}_": 0}))
        if path[-1:] != ("value",) and key not in ("value", "name"):
            yield f"{where} is of another kind", changed(lambda inner: inner.update({key: OF_KIND[type(value)]})
                                                         if isinstance(inner, dict) else inner.__setitem__(key, OF_KIND[type(value)]))
        if isinstance(value, (dict, list)) and key != "value":
            yield from spoilt(value, whole, (*path, key))


def try_all(taken, documents):
    """Holds each document against its schema, and spoilt copies of some; gives how many were held of each kind, how many copies, what is wrong."""
    wrong, held, tried, copies = [], {}, {}, 0
    for name, line in documents:
        document = json.loads(line)
        for error in taken[name].iter_errors(document):
            wrong.append(f"{name}: {error.message[:200]} in {line[:200]}")
        held[name] = held.get(name, 0) + 1
        tried[name] = tried.get(name, 0) + (len(line) <= LONGEST)
        if len(line) <= LONGEST and tried[name] <= SPOILT:
            for what, other in spoilt(document, document):
                copies += 1
                if taken[name].is_valid(other):
                    wrong.append(f"{name}: taken though {what}: {line[:200]}")
    return held, copies, wrong


def main():
    parser = argparse.ArgumentParser(description="Holds what the program prints against the schemas of docs/schema/.")
    parser.add_argument("--program", default=f"{ROOT}/pst_show", help="the program, in place of ./pst_show")
    program = os.path.abspath(parser.parse_args().program)
    warnings.simplefilter("ignore", DeprecationWarning)
    try:
        from jsonschema import Draft202012Validator, RefResolver
    except ImportError:
        print("schemas: not tried, jsonschema for Python is not installed (Debian's python3-jsonschema)")
        return 0
    taken = validators(Draft202012Validator, RefResolver)
    samples = sorted(os.path.relpath(path, ROOT) for path in glob.glob(f"{ROOT}/samples/*.pst"))
    documents = {pair: None for pair in of_answers()}
    documents.update((pair, None) for name in samples for pair in of_sample(program, name))
    wanted = set(OF_COMMAND.values())
    if subprocess.run([program, "export", "--help"], capture_output=True, check=False).returncode == 0:
        documents.update((pair, None) for name in samples for pair in of_export(program, name))
        wanted.add("exported-props")
    held, copies, wrong = try_all(taken, documents)
    wrong += [f"{name}: no document of it was tried" for name in sorted(wanted - set(held))]
    for line in wrong[:50]:
        print(line)
    print(f"schemas: {sum(held.values())} documents of {len(held)} kinds and {copies} spoilt ones, {len(wrong)} differences")
    return 1 if wrong else 0


if __name__ == "__main__":
    sys.exit(main())

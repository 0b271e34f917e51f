#!/usr/bin/python3
"""Compares the digests that the program answers for directory trees with those of an encoder of Protocol Buffers by others.

Trees of directories, files, executable files and links come from a seeded generator. Each is declared at a path of its own, asked for
and drained; the answer `ready S d DIGEST` has the digest of the tree's Directory message. Beside it the same tree is encoded with
protoc and google.protobuf, from the public messages of the Remote Execution API v2 by their field numbers, and hashed with hashlib:
the digest of a directory is the SHA-256 and the length of its message, whose DirectoryNodes carry the digests of the child messages.

This needs Debian's packages protobuf-compiler and python3-protobuf (thus Debian's own python3 above). Without them it says so and
is skipped with status 0. Status 1 is a digest that differs, or an answer that is none. It is run by hand; the gate doesn't run it.
"""

import argparse
import hashlib
import importlib
import os
import random
import shutil
import subprocess
import sys
import tempfile

TOP = os.path.dirname(os.path.dirname(os.path.abspath(__file__)))

# Names, types and field numbers as in build/bazel/remote/execution/v2/remote_execution.proto; the fields that a tree has no value
# for (node properties) are left out.
PROTO = """
syntax = "proto3";
package check;
message Digest { string hash = 1; int64 size_bytes = 2; }
message FileNode { string name = 1; Digest digest = 2; bool is_executable = 4; }
message DirectoryNode { string name = 1; Digest digest = 2; }
message SymlinkNode { string name = 1; string target = 2; }
message Directory { repeated FileNode files = 1; repeated DirectoryNode directories = 2; repeated SymlinkNode symlinks = 3; }
"""

# The bytes of a target; a name has no slash, and is neither `.` nor `..`.
TARGET = "".join(map(chr, range(0x21, 0x7F)))
NAME = TARGET.replace("/", "")

# A path has at most 1,024 bytes, 64 names, and 255 bytes in each name; a line at most 1,048,576 bytes.
LONGEST_PATH, MOST_NAMES, LONGEST_NAME, LONGEST_LINE = 1024, 64, 255, 1048576

# Sizes at which a varint gets a byte more, and what is around them.
SIZES = (0, 1, 2, 3, 63, 64, 126, 127, 128, 129, 255, 256)


class Trees:
    """Makes trees. A directory is a dict from names to nodes, a file its bytes and whether it is executable, a link its target."""

    def __init__(self, seed):
        self.random = random.Random(seed)
        self.contents = [self.random.randbytes(size) for size in SIZES]
        self.contents += [self.random.randbytes(self.random.randint(0, 300)) for _ in range(200)]
        self.contents += [self.random.randbytes(size) for size in (16383, 16384, 20000)]
        self.contents += [b""] * 20

    def name(self, room):
        """A name of at most `room` bytes: a short one of few letters, so that some are prefixes of others, or any, or a long one."""
        while True:
            kind = self.random.random()
            if kind < 0.4:
                text = self.random.choices("ab!.-0~", k=self.random.randint(1, 3))
            elif kind < 0.95:
                text = self.random.choices(NAME, k=self.random.randint(1, 14))
            else:
                text = self.random.choices(NAME, k=self.random.choice((126, 127, 128, 129, 200, LONGEST_NAME)))
            text = "".join(text)[:room]
            if text not in (".", ".."):
                return text

    def leaf(self):
        """A file, executable or not, a link, or an empty directory."""
        kind = self.random.random()
        if kind < 0.2:
            longest = self.random.choice((1, 10, 127, 128, 1024))
            return "".join(self.random.choices(TARGET, k=self.random.randint(1, longest)))
        if kind < 0.3:
            return {}
        return self.random.choice(self.contents), kind < 0.55

    def directory(self, levels, most, room):
        """A directory of at most `most` children and `levels` levels, below which a path grows by at most `room` bytes."""
        children = {}
        for _ in range(self.random.randint(0, most)):
            if room < 2:
                break
            name = self.name(min(room - 1, LONGEST_NAME))
            if levels > 1 and self.random.random() < 0.35:
                children[name] = self.directory(levels - 1, most, room - 1 - len(name))
            else:
                children[name] = self.leaf()
        return children

    def chain(self, names, longest, room):
        """Directories in one another, with a leaf in the last and some beside the others: as deep as there are names and room."""
        top = {}
        here = top
        for _ in range(names - 1):
            if room < 2:
                break
            name = self.random.choice("abcXYZ_-") * min(self.random.randint(1, longest), room - 1)
            room -= 1 + len(name)
            if self.random.random() < 0.3 and room > 0 and len(name) < LONGEST_NAME:
                here[name + "!"] = self.leaf()
            here[name] = {}
            here = here[name]
        if room >= 2:
            here["f"] = self.leaf()
        return top

    def wide(self):
        """A directory of many children, so that its message's length takes three bytes."""
        return {"%s%d" % (self.random.choice("fgh"), number): self.leaf() for number in range(self.random.randint(150, 400))}

    def tree(self, number, room, names):
        """The tree of a number: the kinds take turns, most are bushes."""
        kind = number % 10
        if kind == 1:
            return self.chain(names, 8, room)
        if kind == 2:
            return self.chain(names, LONGEST_NAME, room)
        if kind == 3 and number % 20 == 3:
            return self.wide()
        if kind == 4 and number % 50 == 4:
            return {}
        return self.directory(self.random.randint(1, 6), self.random.choice((1, 3, 6)), room)


def digest(data):
    """The digest of bytes, as text."""
    return "%s:%d" % (hashlib.sha256(data).hexdigest(), len(data))


def words(rel, node):
    """The words of the nodes at and below a rel, in order of rel."""
    text = rel or "."
    if isinstance(node, str):
        return ["l %s %s" % (node, text)]
    if isinstance(node, tuple):
        return ["%s %s %s" % ("x" if node[1] else "f", digest(node[0]), text)]
    below = ["d " + text]
    for name in sorted(node):
        below += words(rel + "/" + name if rel else name, node[name])
    return below


class Encoder:
    """Encodes directories by google.protobuf, and counts what it saw."""

    def __init__(self, messages):
        self.messages = messages
        self.counts = dict.fromkeys(("directories", "empty directories", "plain files", "executable files", "empty files", "links"), 0)
        self.longest = 0

    def put_digest(self, field, data):
        field.hash = hashlib.sha256(data).hexdigest()
        field.size_bytes = len(data)

    def put_child(self, message, name, node):
        if isinstance(node, str):
            self.counts["links"] += 1
            message.symlinks.add(name=name, target=node)
        elif isinstance(node, tuple):
            self.counts["executable files" if node[1] else "plain files"] += 1
            self.counts["empty files"] += not node[0]
            field = message.files.add(name=name, is_executable=node[1])
            self.put_digest(field.digest, node[0])
        else:
            field = message.directories.add(name=name)
            self.put_digest(field.digest, self.encode(node))

    def encode(self, directory):
        """The bytes of a directory's message, its children in order of name."""
        message = self.messages.Directory()
        for name in sorted(directory):
            self.put_child(message, name, directory[name])
        data = message.SerializeToString(deterministic=True)
        self.counts["directories"] += 1
        self.counts["empty directories"] += not directory
        self.longest = max(self.longest, len(data))
        return data


def messages_of(folder, protoc):
    """The classes of the messages, which protoc makes in a folder."""
    with open(os.path.join(folder, "tree_messages.proto"), "w", encoding="ascii") as file:
        file.write(PROTO)
    subprocess.run([protoc, "--python_out=.", "tree_messages.proto"], cwd=folder, check=True)
    sys.dont_write_bytecode = True
    sys.path.insert(0, folder)
    return importlib.import_module("tree_messages_pb2")


def fail(text):
    print("reapi_check: " + text)
    sys.exit(1)


def replies_of(lines):
    """What the program writes for the lines of a script; its first start may build it."""
    for line in lines:
        if len(line) > LONGEST_LINE:
            fail("a line of %d bytes is longer than the program reads" % len(line))
    script = "".join(line + "\n" for line in lines).encode("ascii")
    ran = subprocess.run([os.path.join(TOP, "buckd"), "replay", "1"], input=script, stdout=subprocess.PIPE)
    if ran.returncode != 0:
        fail("the program ended with status %d" % ran.returncode)
    return ran.stdout.decode("ascii").splitlines()


def check(number, seed, messages):
    """Compares `number` trees, and returns whether all agree."""
    maker = Trees(seed)
    paths = ["t/%d" % k for k in range(number)]
    trees = [maker.tree(k, LONGEST_PATH - len(path), MOST_NAMES - len(path.split("/"))) for k, path in enumerate(paths)]
    # A blob line has at least one byte: the empty file needs none, and is made without the store.
    blobs = sorted({data for data in maker.contents if data})

    # Each line gives one reply, in this order; the answers of the tickets follow that of the drain.
    lines, wanted = ["enter 1 1"], ["entered"]
    for data in blobs:
        lines.append("blob " + data.hex())
        wanted.append("stored " + digest(data))
    for path, tree in zip(paths, trees):
        lines.append("declare 1 %s %s" % (path, " ".join(words("", tree))))
        wanted.append("declared ")
        lines.append("ensure 1 " + path)
        wanted.append("open ")
    lines += ["drain", "end"]
    wanted.append("drained")

    replies = replies_of(lines)
    for line, start, reply in zip(lines, wanted, replies):
        if not (reply.startswith(start) if start.endswith(" ") else reply == start):
            fail("`%.60s` was answered `%.90s` in the place of `%s`" % (line, reply, start))
    if len(replies) != len(wanted) + number:
        fail("%d lines of replies in the place of %d" % (len(replies), len(wanted) + number))

    answers = {}
    for reply in replies[len(wanted):]:
        begin, ticket, answer = reply.split(" ", 2)
        if begin != "answer" or ticket in answers:
            fail("`%.90s` isn't the one answer of a ticket" % reply)
        answers[ticket] = answer
    stamps = [reply.split(" ")[1] for reply in replies[:len(wanted)] if reply.startswith("declared ")]
    tickets = [reply.split(" ")[1] for reply in replies[:len(wanted)] if reply.startswith("open ")]

    encoder = Encoder(messages)
    agree = 0
    for path, tree, stamp, ticket in zip(paths, trees, stamps, tickets):
        right = "ready %s d %s" % (stamp, digest(encoder.encode(tree)))
        found = answers.get(ticket, "nothing")
        agree += found == right
        if found != right:
            print("%s differs: the program says `%s`, the encoder `%s`" % (path, found, right))
            print("  its words: %.400s" % " ".join(words("", tree)))
    print("%d trees of seed %d: %d agree, %d differ" % (number, seed, agree, number - agree))
    print("encoded: " + ", ".join("%d %s" % (count, what) for what, count in encoder.counts.items()), end="")
    print("; the longest message has %d bytes" % encoder.longest)
    return agree == number


def main():
    parser = argparse.ArgumentParser(description=__doc__.split("\n", 1)[0])
    parser.add_argument("--trees", type=int, default=300, metavar="N", help="how many trees are compared (300)")
    parser.add_argument("--seed", type=int, default=1, metavar="N", help="the seed of their generator (1)")
    asked = parser.parse_args()
    protoc = shutil.which("protoc")
    lacking = [] if protoc else ["protoc (Debian's protobuf-compiler)"]
    try:
        importlib.import_module("google.protobuf")
    except ImportError:
        lacking.append("google.protobuf (Debian's python3-protobuf) in " + sys.executable)
    if lacking:
        print("skipped: no " + ", and no ".join(lacking))
        return 0
    with tempfile.TemporaryDirectory() as folder:
        return 0 if check(asked.trees, asked.seed, messages_of(folder, protoc)) else 1


if __name__ == "__main__":
    sys.exit(main())

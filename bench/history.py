"""A small file system and the reports of `run`, for scripts that carry out what a report says."""
import re

# Words of a line of a report after which it is whole
LINE = re.compile(
    r"base \d+|commit \d+ session \d+ group \d+ (fsync|fatomic)|at \d+ session \d+ group \d+ (fsync|fatomic|ask)"
    r"|  (ok|data .*|names.*|file \d+|dir \d+|refused \w+)|answer \d+ \d+ (ok \d+|memory|[a-z]+ [\d -]+)|(clean|cut) \d+|stopped \w+ \d+"
)


class Tree:
    """Directories and files, by path: None is a directory, and bytes are a file."""

    def __init__(self):
        self.paths = {"/": None}

    def parent_is_there(self, path):
        head = path.rsplit("/", 1)[0] or "/"
        return head in self.paths and self.paths[head] is None

    def act(self, request):
        verb, path, *rest = request.split(" ", 3)
        if verb in ("mkdir", "create"):
            if not self.parent_is_there(path):
                return "refused NotFound"
            if path in self.paths:
                return "refused Exists"
            self.paths[path] = None if verb == "mkdir" else b""
            return "ok"
        if verb == "unlink":
            if path not in self.paths:
                return "refused NotFound"
            if self.paths[path] is None:
                return "refused IsDir"
            del self.paths[path]
            return "ok"
        if verb == "rename":
            to = rest[0]
            if path not in self.paths or not self.parent_is_there(to):
                return "refused NotFound"
            if to in self.paths:
                return "refused Exists"
            self.paths[to] = self.paths.pop(path)
            return "ok"
        if verb == "write":
            if path not in self.paths:
                return "refused NotFound"
            at, data = int(rest[0]), bytes_of(rest[1])
            old = self.paths[path].ljust(at, b"\0")
            self.paths[path] = old[:at] + data + old[at + len(data):]
            return "ok"
        raise ValueError(request)

    def listing(self):
        lines = []
        for path in sorted(self.paths, key=lambda p: [n.encode() for n in p.split("/") if n]):
            body = self.paths[path]
            lines.append(f"d {path}" if body is None else f"f {len(body)} {path}")
        return lines


def bytes_of(data):
    """The bytes that the last word of `write` spells: a text in quotes, or as `fill:HH:N`."""
    if data.startswith("fill:"):
        _, byte, count = data.split(":")
        return bytes([int(byte, 16)]) * int(count)
    return data.strip('"').encode()


def text_of(groups):
    """A script of groups that end with `fsync`."""
    return "".join("\n".join(group) + "\nfsync\n" for group in groups)


def read_report(text):
    """The commits and reads in order, each with its replies; the answers; the last line."""
    entries, answers, lines = [], [], text.splitlines()
    for line in lines[1:]:
        words = line.split(" ")
        if words[0] in ("commit", "at"):
            entries.append((words[0] == "commit", int(words[1]), int(words[3]), int(words[5]), []))
        elif line.startswith("  "):
            entries[-1][4].append(line[2:])
        elif words[0] == "answer":
            answers.append((int(words[1]), int(words[2]), words[3:]))
    return entries, answers, lines[-1]

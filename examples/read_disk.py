#!/usr/bin/env python3
"""Reads the two files that rank_server keeps, search-a.dat and search-b.dat, and says what they hold.

    examples/read_disk.py [FOLDER] [--documents]

Written from docs/FORMAT.md, and from docs/API.md for the changes that are accepted. It prints the file that counts,
its image index by index, how the last tasks before the image ended, where it is of version 2, and each task that the
journal behind it records, with what became of it; with --documents also the documents that are held after all of
these, a line of JSON each. Where rank_server would end with status 7 it names the file, the place, the byte there and
the field that begins with it, and ends with 1.
"""
import json
import pathlib
import re
import sys

FILES = ("search-a.dat", "search-b.dat")
KINDS = {1: "create", 2: "drop", 3: "replace", 4: "update", 5: "remove", 6: "clear", 7: "patch", 8: "reset"}
HEADER = 24
MOST_CHANGES, MOST_INDEXES, MOST_IDS, MOST_PATHS, MOST_OUTCOMES = 1_000_000_000, 1000, 1_000_000, 1000, 1000
ROWS = (0, 23, 24, 26, 27, 28, 29, 30, 32, 33, 34)
DEEPEST = 127
UID, ID = re.compile(r"[A-Za-z0-9_-]{1,400}"), re.compile(r"[A-Za-z0-9_-]{1,511}")
RULES = ("words", "typo", "proximity", "attribute", "sort", "exactness")
VALUED_RULE = re.compile(r".+:(asc|desc)", re.DOTALL)
TEXTS = {"displayedAttributes": 65535, "filterableAttributes": None, "rankingRules": 32, "searchableAttributes": 65535,
         "sortableAttributes": None, "stopWords": None}
COUNTS = {"faceting": "maxValuesPerFacet", "pagination": "maxTotalHits"}
SETTINGS = (*TEXTS, *COUNTS, "distinctAttribute", "synonyms")


class Damaged(Exception):
    """A field that is cut off or not allowed: the number of its file, its place, the byte there, and its name."""

    def __init__(self, disk, place, content, field):
        byte = content[place] if place < len(content) else None
        found = "at the end" if byte is None else f"found {byte}"
        super().__init__(f"{FILES[disk]} is damaged at byte {place}, {found}: {field}")
        self.disk, self.place, self.byte, self.field = disk, place, byte, field


class Refused(Exception):
    """A change that no server accepts, or a task that fails."""


# ---- JSON as it is printed

def whole(text):
    number = int(text)
    if text == "-0" or not -2**63 <= number < 2**64:
        raise ValueError(text)
    return number


def never(text):
    raise ValueError(text)


def depth(value):
    inner = value.values() if isinstance(value, dict) else value if isinstance(value, list) else None
    return 0 if inner is None else 1 + max(map(depth, inner), default=0)


def printed(raw):
    """The value of JSON whose numbers are whole, printed without blanks and with names in the order of bytes."""
    try:
        value = json.loads(raw.decode(), parse_int=whole, parse_float=never, parse_constant=never)
        again = json.dumps(value, ensure_ascii=False, separators=(",", ":"), sort_keys=True)
        if again.encode() != raw or depth(value) > DEEPEST:
            raise ValueError("it is not printed so")
    except RecursionError:
        raise ValueError("it is too deep") from None
    return value


def is_number(value):
    return isinstance(value, int) and not isinstance(value, bool)


def are_texts(value, most=None):
    return isinstance(value, list) and all(isinstance(text, str) for text in value) and \
        (most is None or len(value) <= most)


# ---- The rules of documents and settings

def external_id(document, key):
    """The id of a document, or None where it has none."""
    value = document.get(key)
    if is_number(value):
        return str(value)
    return value if isinstance(value, str) and ID.fullmatch(value) else None


def paths_of(document):
    """The paths of all members, those of objects in arrays too."""
    left = [("", document)]
    while left:
        path, value = left.pop()
        if isinstance(value, dict):
            for name, inner in value.items():
                yield path + name
                left.append((f"{path}{name}.", inner))
        elif isinstance(value, list):
            left.extend((path, inner) for inner in value)


def is_setting(name, value):
    if name in COUNTS:
        inner = value.get(COUNTS[name]) if isinstance(value, dict) and len(value) == 1 else None
        return is_number(inner) and 0 <= inner <= 1_000_000
    if name == "distinctAttribute":
        return value is None or isinstance(value, str)
    if name == "synonyms":
        return isinstance(value, dict) and all(map(are_texts, value.values()))
    return are_texts(value, TEXTS[name]) and \
        (name != "rankingRules" or all(rule in RULES or VALUED_RULE.fullmatch(rule) for rule in value))


def are_settings(value):
    """All ten members, as they are printed."""
    return isinstance(value, dict) and set(value) == set(SETTINGS) and \
        all(is_setting(name, inner) for name, inner in value.items())


def is_patch(value):
    """Some of the members. Null gives a default back, also inside those that have members of their own."""
    def fits(name, inner):
        if inner is None or name not in COUNTS or not isinstance(inner, dict):
            return name in SETTINGS and (inner is None or is_setting(name, inner))
        return not inner or inner == {COUNTS[name]: None} or is_setting(name, inner)

    return isinstance(value, dict) and all(fits(name, inner) for name, inner in value.items())


# ---- Fields

class Fields:
    """The fields from a place of a file on, up to an end."""

    def __init__(self, disk, content, place, end):
        self.disk, self.content, self.place, self.end = disk, content, place, end

    def damaged(self, place, field):
        return Damaged(self.disk, place, self.content[:self.end], field)

    def number(self, size, field, allowed=None):
        start, behind = self.place, self.place + size
        value = int.from_bytes(self.content[start:behind], "little")
        if behind > self.end or (allowed and not allowed(value)):
            raise self.damaged(start, field)
        self.place = behind
        return value

    def piece(self, size, field):
        """The bytes behind their length, which has so many bytes itself, and their place."""
        start, length = self.place, self.number(size, f"the length of {field}")
        if self.place + length > self.end:
            raise self.damaged(start, f"the length of {field}")
        self.place += length
        return self.content[self.place - length:self.place], self.place - length

    def read(self, size, field, reader, allowed):
        raw, start = self.piece(size, field)
        try:
            value = reader(raw)
        except ValueError:
            raise self.damaged(start, field) from None
        if not allowed(value):
            raise self.damaged(start, field)
        return value

    def text(self, field, allowed=lambda text: True):
        return self.read(4, field, bytes.decode, allowed)

    def optional(self, field, allowed=lambda text: True):
        return self.text(field, allowed) if self.number(1, f"whether {field} is there", lambda n: n <= 1) else None

    def json(self, size, field, allowed):
        return self.read(size, field, printed, allowed)

    def ends(self, field):
        if self.place != self.end:
            raise self.damaged(self.place, field)


def header(disk, content):
    """The generation and the length of the image of a file that is open, or None."""
    if len(content) < HEADER or content[0] == 0:
        return None
    if content[1:8] != b"RANKIDX":
        raise Damaged(disk, 1, content, "the name RANKIDX")
    generation, length = (int.from_bytes(content[at:at + 8], "little") for at in (8, 16))
    if generation == 0:
        raise Damaged(disk, 8, content, "the generation")
    if HEADER + length + 1 > len(content):
        raise Damaged(disk, 16, content, "the length of the image")
    return generation, length


def active(contents):
    """The generation of the file that counts, its number and the length of its image, or None where no file is open."""
    headers = [header(disk, content) for disk, content in enumerate(contents)]
    opened = [(found[0], disk, found[1]) for disk, found in enumerate(headers) if found]
    if len(opened) == 2 and opened[0][0] == opened[1][0]:
        raise Damaged(1, 8, contents[1], "the generation, which both files have")
    return max(opened, default=None)


# ---- The image

class Index:
    """What is held of one index: its key, its paths, and its documents by their ids."""

    def __init__(self, key=None):
        self.key, self.next_id, self.paths, self.documents = key, 0, set(), {}


def read_paths(fields):
    paths = set()
    for _ in range(fields.number(4, "the number of paths", lambda n: n <= MOST_PATHS)):
        paths.add(fields.text("a path", lambda path: path not in paths))
    return paths


def read_index(fields):
    index = Index(fields.optional("the primary key", lambda key: key != ""))
    index.next_id = fields.number(4, "the next internal id", lambda n: n <= MOST_IDS)
    index.paths = read_paths(fields)
    fields.json(8, "the settings", are_settings)
    last, count = -1, fields.number(4, "the number of documents", lambda n: n <= (0 if index.key is None else MOST_IDS))

    def fits(document):
        external = external_id(document, index.key) if isinstance(document, dict) else None
        return external is not None and external not in index.documents and index.paths.issuperset(paths_of(document))

    for _ in range(count):
        last = fields.number(4, "an internal id", lambda n, least=last: least < n < index.next_id)
        document = fields.json(8, "a document", fits)
        index.documents[external_id(document, index.key)] = document
    return index


def read_outcome(fields):
    """The kind and the uid of a task, and the number of what it failed by, or 0."""
    kind = KINDS[fields.number(1, "the kind of an outcome", KINDS.get)]
    uid = fields.text("the uid of an outcome", UID.fullmatch)
    return kind, uid, fields.number(1, "what became of a task", lambda row: row in ROWS)


def image(fields):
    """The count of finished tasks, the indexes by their uids, and the outcomes that version 2 has."""
    version = fields.number(1, "the version of the image", lambda n: n in (1, 2))
    changes = fields.number(8, "the count of tasks", lambda n: n <= MOST_CHANGES)
    indexes, last = {}, ""
    for _ in range(fields.number(4, "the number of indexes", lambda n: n <= MOST_INDEXES)):
        last = fields.text("the uid of an index", lambda uid, least=last: UID.fullmatch(uid) and least < uid)
        indexes[last] = read_index(fields)
    most = min(changes, MOST_OUTCOMES)
    count = fields.number(4, "the number of outcomes", lambda n: n <= most) if version == 2 else 0
    outcomes = [read_outcome(fields) for _ in range(count)]
    fields.ends("the end of the image")
    return changes, indexes, outcomes


# ---- The journal

def change(fields):
    """What a payload says: the kind, the uid, and the rest."""
    kind = KINDS[fields.number(1, "the kind of a change", KINDS.get)]
    uid, said = fields.text("the uid of a change"), None
    if kind == "create":
        said = fields.optional("the primary key")
    elif kind in ("replace", "update"):
        key, count = fields.optional("the primary key"), fields.number(4, "the number of documents")
        said = key, [fields.json(4, "a document", lambda value: isinstance(value, dict)) for _ in range(count)]
    elif kind == "remove":
        said = fields.json(4, "the ids that go", are_texts)
    elif kind == "patch":
        said = fields.json(4, "the settings that change", lambda value: True)
    fields.ends("the end of a change")
    return kind, uid, said


def journal(disk, content, gate, count):
    """The payloads behind an image, each as the place where it begins and where it ends."""
    fields = Fields(disk, content, gate, len(content))
    while fields.number(1, f"the gate in front of task {count}"):
        fields.number(8, f"the number of task {count}", lambda number, wanted=count: number == wanted)
        payload, start = fields.piece(4, f"task {count}")
        yield start, start + len(payload)
        count += 1


def store(index, kind, key, documents):
    """Puts documents into an index, all of them or none."""
    if index.key and key not in (None, index.key):
        raise Refused("the primary key is another one")
    if documents and not (index.key or key):
        names = [name for name in documents[0] if re.search(r"id\Z", name, re.ASCII | re.IGNORECASE)]
        if len(names) != 1:
            raise Refused("the primary key cannot be told")
        key = names[0]
    key, placed, paths = index.key or key, {}, set()
    for document in documents:
        external = external_id(document, key)
        if external is None:
            raise Refused("a document has no id")
        before = placed.get(external) or index.documents.get(external)
        placed[external] = {**before, **document} if before and kind == "update" else document
        paths.update(paths_of(document))
    next_id = index.next_id + sum(external not in index.documents for external in placed)
    if next_id > MOST_IDS or len(index.paths | paths) > MOST_PATHS:
        raise Refused("the index has too many documents or paths")
    index.key, index.next_id = key, next_id
    index.paths |= paths
    index.documents.update(placed)


def perform(indexes, kind, uid, said):
    """Makes a change, or says why its task fails, and then makes none."""
    index = indexes.get(uid)
    if index is None and kind in ("drop", "remove", "clear", "reset"):
        raise Refused("there is no such index")
    if index is not None and kind == "create":
        raise Refused("the index is there already")
    if index is None and len(indexes) == MOST_INDEXES:
        raise Refused("there are too many indexes")
    if kind == "drop":
        del indexes[uid]
        return
    if index is None:
        index = Index(said if kind == "create" else None)
    if kind in ("replace", "update"):
        store(index, kind, *said)
    elif kind == "remove":
        for external in said:
            index.documents.pop(external, None)
    elif kind == "clear":
        index.documents = {}
    indexes[uid] = index


def ensure_accepted(number, kind, uid, said):
    """Says why no server accepts a change under this number."""
    if number >= MOST_CHANGES:
        raise Refused("there are too many changes")
    if not UID.fullmatch(uid) or said == "" or (kind in ("replace", "update") and said[0] == ""):
        raise Refused("a uid or a primary key is none")
    if kind == "patch" and not is_patch(said):
        raise Refused("the settings have a member that is none")


def run(indexes, asked):
    """Runs a task and says what became of it."""
    try:
        perform(indexes, *asked)
    except Refused as refused:
        return f", failed: {refused}"
    return ""


def task_line(number, kind, uid, said):
    return f"task {number}: {kind} {uid}" + (f", {len(said[1])} documents" if kind in ("replace", "update") else "")


def held(contents, tell=lambda line: None):
    """The indexes that are held, told line by line as they are read."""
    found = active(contents)
    if found is None:
        tell("nothing is held: no file is open")
        return {}
    generation, disk, length = found
    content = contents[disk]
    changes, indexes, outcomes = image(Fields(disk, content, HEADER, HEADER + length))
    payloads = list(journal(disk, content, HEADER + length, changes))
    tell(f"{FILES[disk]} counts, generation {generation}: an image of {length} bytes after {changes} tasks")
    for uid, index in indexes.items():
        tell(f"index {uid}: key {index.key}, {len(index.documents)} documents, next id {index.next_id}, "
             f"{len(index.paths)} paths")
    if outcomes:
        failed = sum(row != 0 for _, _, row in outcomes)
        tell(f"tasks {changes - len(outcomes)} to {changes - 1}: {len(outcomes) - failed} succeeded, {failed} failed")
    for number, (start, end) in enumerate(payloads, changes):
        asked = change(Fields(disk, content, start, end))
        try:
            ensure_accepted(number, *asked)
        except Refused as refused:
            raise Damaged(disk, start, content, f"task {number}, whose change no server accepts: {refused}") from None
        tell(task_line(number, *asked) + run(indexes, asked))
    return indexes


def contents_of(folder):
    return [(folder / name).read_bytes() if (folder / name).exists() else b"" for name in FILES]


def main():
    words = [word for word in sys.argv[1:] if word != "--documents"]
    folder = pathlib.Path(words[0] if words else ".")
    if len(words) > 1 or not folder.is_dir():
        sys.exit(__doc__.strip() if len(words) > 1 else f"read_disk: {folder} is no folder")
    indexes = held(contents_of(folder), print)
    if "--documents" in sys.argv:
        for uid, index in sorted(indexes.items()):
            print(f"documents of {uid}:")
            for document in index.documents.values():
                print(json.dumps(document, ensure_ascii=False))


if __name__ == "__main__":
    try:
        main()
    except Damaged as damage:
        sys.exit(str(damage))

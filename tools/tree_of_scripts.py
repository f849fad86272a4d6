"""A small model of the store in Python, written apart from the program: what a replay of a script writes, and what a race by one
worker writes, which does the same in the same order and tells it client by client.

Shards are not modelled: whatever their number, the store is one. Disks are, since a dump shows what each of them keeps. A command is a
generator that yields once before each of its transactions, so that a script may stop it between any two. What it decides by what its
client knows alone, it decides before the first.
"""

ROOT = 1
MOST_ROWS = 4096
GOLDEN = 0x9E3779B97F4A7C15


def op_text(op):
    return "none" if op is None else "%d.%d" % op


class Block:
    """Its bytes' length, whether it is sealed, the holds of rows of files, and its rows: disk and number of the tag."""

    def __init__(self, length, hold, rows):
        self.length = length
        self.sealed = False
        self.holds = {hold}
        self.rows = rows


class Store:
    def __init__(self, disks=0, copies=0):
        self.disks = disks
        self.copies = copies
        self.parents = {ROOT: 0}
        self.entries = {ROOT: {}}
        self.dir_holds = {ROOT: set()}
        self.file_holds = {}
        self.tokens = {}
        self.rows = {}
        self.blocks = {}
        self.chunks = {}
        self.sealed = set()

    def holds(self, node):
        kind, number = node
        table = self.dir_holds if kind == "dir" else self.file_holds
        return table.get(number)

    def look(self, folder, name):
        """The node and the hold of an entry, or the answer of a refusal."""
        if folder not in self.entries:
            return None, "no-dir"
        if name not in self.entries[folder]:
            return None, "no-name"
        return self.entries[folder][name], None

    def grant(self, node, hold):
        holds = self.holds(node)
        if holds is None:
            return "no-dir" if node[0] == "dir" else "no-file"
        holds.add(hold)
        return None

    def release(self, node, hold):
        holds = self.holds(node)
        if holds is not None:
            holds.discard(hold)

    def state(self, node):
        return "sealed" if node in self.sealed else "open"

    def dump(self):
        for folder in sorted(self.parents):
            entries = self.entries[folder]
            parent, state = self.parents[folder], self.state(("dir", folder))
            yield f"dir {folder} parent {parent} {state} entries {len(entries)} holds {len(self.dir_holds[folder])}"
            for name in sorted(entries):
                (kind, number), _ = entries[name]
                yield f"entry {folder} {name} {kind} {number}"
        for number in sorted(self.file_holds):
            token, state = op_text(self.tokens.get(number)), self.state(("file", number))
            yield f"file {number} {state} token {token} blocks {len(self.rows[number])} holds {len(self.file_holds[number])}"
        for number in sorted(self.blocks):
            block = self.blocks[number]
            version = 1 if block.sealed else 0
            yield f"block {number} len {block.length} version {version} rows {len(block.rows)} holds {len(block.holds)}"
        for disk, number, tag in sorted(self.chunks):
            yield f"chunk {disk} {number} {op_text(tag[0])}.{tag[1]} {len(self.chunks[disk, number, tag])}"


class Client:
    def __init__(self, number):
        self.number = number
        self.serial = 1
        self.begun = 0
        self.running = None
        self.steps = 0
        self.opened = {}

    def take_number(self):
        taken = self.number * 2**32 + self.serial
        self.serial += 1
        return taken


def names_of(path):
    return [] if path == "/" else path[1:].split("/")


def walk(store, names):
    """Looks each name up, and comes to the last one's directory, or to a refusal."""
    folder = ROOT
    for name in names:
        yield
        found, refusal = store.look(folder, name)
        if refusal:
            return None, refusal
        (kind, number), _ = found
        if kind == "file":
            return None, "not-dir"
        folder = number
    return folder, None


def look(store, client, hold, path):
    names = names_of(path)
    folder, refusal = yield from walk(store, names[:-1])
    if refusal:
        return refusal
    yield
    if not names:
        return f"ok dir {ROOT}"
    found, refusal = store.look(folder, names[-1])
    return refusal or "ok %s %d" % found[0]


def list_entries(store, client, hold, path):
    folder, refusal = yield from walk(store, names_of(path))
    if refusal:
        return refusal
    yield
    entries = store.entries[folder]
    return f"ok {len(entries)}" + "".join(f" {name} {entries[name][0][0]} {entries[name][0][1]}" for name in sorted(entries))


def make(store, client, hold, path, kind):
    names = names_of(path)
    if not names:
        return "no-name"
    folder, refusal = yield from walk(store, names[:-1])
    if refusal:
        return refusal
    yield
    number = client.take_number()
    if kind == "dir":
        store.parents[number] = folder
        store.entries[number] = {}
        store.dir_holds[number] = {hold}
    else:
        store.file_holds[number] = {hold}
        store.rows[number] = []
    node = (kind, number)
    yield
    old = store.entries[folder].get(names[-1])
    refusal = bind_refusal(store, folder, kind, old)
    if refusal:
        yield
        store.release(node, hold)
        return refusal
    store.entries[folder][names[-1]] = (node, hold)
    if old:
        yield
        store.release(*old)
    return f"ok {kind} {number}"


def bind_refusal(store, folder, kind, old):
    """A file replaces a file; nothing else replaces. A sealed directory takes no name."""
    if ("dir", folder) in store.sealed:
        return "sealed"
    if old is None or (kind == "file" and old[0][0] == "file"):
        return None
    return "is-dir" if kind == "file" else "exists"


def create(store, client, hold, path):
    return (yield from make(store, client, hold, path, "file"))


def mkdir(store, client, hold, path):
    return (yield from make(store, client, hold, path, "dir"))


def delete(store, client, hold, path):
    names = names_of(path)
    if not names:
        return "no-name"
    folder, refusal = yield from walk(store, names[:-1])
    if refusal:
        return refusal
    yield
    if ("dir", folder) in store.sealed:
        return "sealed"
    found, refusal = store.look(folder, names[-1])
    if refusal:
        return refusal
    if found[0][0] == "dir":
        return "is-dir"
    del store.entries[folder][names[-1]]
    yield
    store.release(*found)
    return "ok"


def rename(store, client, hold, path, to):
    names, new = names_of(path), names_of(to)
    if not names or not new:
        return "no-name"
    folder, refusal = yield from walk(store, names[:-1])
    if refusal:
        return refusal
    yield
    found, refusal = store.look(folder, names[-1])
    if refusal:
        return refusal
    node = found[0]
    if names[-1] == new[-1]:
        return "ok"
    yield
    refusal = store.grant(node, hold)
    if refusal:
        return refusal
    yield
    entries = store.entries[folder]
    now = entries.get(names[-1])
    over = entries.get(new[-1])
    if ("dir", folder) in store.sealed:
        refusal = "sealed"
    elif now is None or now[0] != node:
        refusal = f"changed {folder} {names[-1]} now " + ("none" if now is None else "%s %d" % now[0])
    elif over is not None:
        refusal = over_refusal(node, over[0])
    if refusal:
        yield
        store.release(node, hold)
        return refusal
    del entries[names[-1]]
    entries[new[-1]] = (node, hold)
    yield
    store.release(node, now[1])
    if over is not None:
        yield
        store.release(*over)
    return "ok"


def over_refusal(node, over):
    """A file replaces a file; nothing else replaces, and nothing replaces a directory."""
    if over[0] == "dir":
        return "is-dir"
    return "exists" if node[0] == "dir" else None


def find_file(store, path):
    """The file to which the path leads, or a refusal."""
    names = names_of(path)
    if not names:
        return None, "is-dir"
    folder, refusal = yield from walk(store, names[:-1])
    if refusal:
        return None, refusal
    yield
    found, refusal = store.look(folder, names[-1])
    if refusal:
        return None, refusal
    (kind, number), _ = found
    return (None, "is-dir") if kind == "dir" else (number, None)


def open_file(store, client, op, path):
    file, refusal = yield from find_file(store, path)
    if refusal:
        return refusal
    yield
    if file not in store.file_holds:
        return "no-file"
    if ("file", file) in store.sealed:
        return "sealed"
    store.tokens[file] = op
    client.opened[path] = file, op
    return f"ok file {file} token {op_text(op)}"


def disks_of(store, number):
    """Where the copies of a block lie: from a disk that its number tells, upwards and round."""
    first = (number * GOLDEN % 2**64 >> 32) % store.disks
    return [(first + part) % store.disks for part in range(store.copies)]


def append(store, client, op, path, text):
    if path not in client.opened:
        return "not-open"
    if store.disks < store.copies:
        return f"few-disks {store.disks} {store.copies}"
    file, token = client.opened[path]
    content = bytes.fromhex(text)
    yield
    number = client.take_number()
    rows = [(disk, (op, part)) for part, disk in enumerate(disks_of(store, number))]
    block = store.blocks[number] = Block(len(content), op, rows)
    for disk, tag in rows:
        yield
        store.chunks[disk, number, tag] = content
    yield
    block.sealed = True
    yield
    refusal = attach_refusal(store, file, token)
    if refusal:
        yield
        block.holds.discard(op)
        return refusal
    store.rows[file].append(number)
    return f"ok block {number} at {len(store.rows[file]) - 1}"


def attach_refusal(store, file, token):
    """A file takes a block of the client alone that opened it last, as long as it is not sealed and has room."""
    if file not in store.file_holds:
        return "no-file"
    if ("file", file) in store.sealed:
        return "sealed"
    if store.tokens[file] != token:
        return f"token-changed {op_text(store.tokens[file])}"
    return f"full {file}" if len(store.rows[file]) >= MOST_ROWS else None


def blocks_of(store, path):
    """The blocks of the file to which the path leads, as they are now, or a refusal."""
    file, refusal = yield from find_file(store, path)
    if refusal:
        return None, refusal
    yield
    return ([*store.rows[file]], None) if file in store.file_holds else (None, "no-file")


def list_blocks(store, client, op, path):
    numbers, refusal = yield from blocks_of(store, path)
    if refusal:
        return refusal
    return f"ok {len(numbers)}" + "".join(f" {number} {store.blocks[number].length}" for number in numbers)


def read(store, client, op, path):
    numbers, refusal = yield from blocks_of(store, path)
    if refusal:
        return refusal
    content = b""
    for number in numbers:
        yield
        disk, tag = min(store.blocks[number].rows)
        yield
        content += store.chunks[disk, number, tag]
    return f"ok {len(content)}" + (f" {content.hex()}" if content else "")


def seal(store, client, op, path):
    names = names_of(path)
    folder, refusal = yield from walk(store, names[:-1])
    if refusal:
        return refusal
    node = "dir", ROOT
    if names:
        yield
        found, refusal = store.look(folder, names[-1])
        if refusal:
            return refusal
        node = found[0]
    yield
    if store.holds(node) is None:
        return "no-dir" if node[0] == "dir" else "no-file"
    store.sealed.add(node)
    return "ok"


COMMANDS = {
    "look": look,
    "list": list_entries,
    "create": create,
    "mkdir": mkdir,
    "delete": delete,
    "rename": rename,
    "open": open_file,
    "append": append,
    "blocks": list_blocks,
    "read": read,
    "seal": seal,
}


class Replay:
    def __init__(self):
        self.store = Store()
        self.clients = {}
        self.lines = []

    def answer(self, name, client, text):
        self.tell(name, f"{name} {client.begun} {client.steps} {text}")
        client.running = None

    def tell(self, name, line):
        self.lines.append(line)

    def end_part(self):
        """A dump comes, or the end."""

    def begin(self, client, words):
        client.begun += 1
        client.steps = 0
        hold = (client.number, client.begun)
        client.running = COMMANDS[words[0]](self.store, client, hold, *words[1:])
        client.reached = None
        self.go(client)

    def go(self, client):
        """Up to the next transaction, or to the answer."""
        try:
            next(client.running)
        except StopIteration as end:
            client.reached = end.value

    def step(self, name, client, most):
        while client.running is not None and most != 0:
            if client.reached is None:
                client.steps += 1
                self.go(client)
            if client.reached is not None:
                self.answer(name, client, client.reached)
            most -= 1

    def line(self, line):
        if line.startswith("#"):
            return
        if line.startswith("store "):
            self.store = Store(*map(int, line.split(" ")[4:]))
            return
        if line == "dump":
            self.end_part()
            self.lines.extend(self.store.dump())
            return
        name, verb, *rest = line.split(" ")
        client = self.clients.setdefault(name, Client(len(self.clients) + 1))
        if verb == "begin":
            self.begin(client, rest)
        elif verb == "step":
            self.step(name, client, int(rest[0]))
        elif verb == "run":
            self.step(name, client, -1)
        elif verb == "stop":
            if client.running is not None:
                self.answer(name, client, "stopped")
        else:
            self.begin(client, [verb, *rest])
            self.step(name, client, -1)


class Race(Replay):
    """By one worker: the answers of a part are told at its end, client by client in the order in which the script first names them."""

    def __init__(self):
        super().__init__()
        self.told = {}

    def tell(self, name, line):
        self.told.setdefault(name, []).append(line)

    def end_part(self):
        for name in self.clients:
            self.lines += self.told.pop(name, [])


def written(run, script):
    for line in script.splitlines():
        run.line(line)
    run.end_part()
    return "".join(line + "\n" for line in run.lines + ["end"])


def replay(script):
    """What a replay writes for a script that has no fault."""
    return written(Replay(), script)


def race(script):
    """What a race by one worker writes for a script that has no fault."""
    return written(Race(), script)

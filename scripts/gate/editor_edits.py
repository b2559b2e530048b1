"""Random edits by way of the language server: what an editor is shown is what a new session reports."""

import random

from held_session import FILES, put, run

ROUNDS, EDITS = 12, 10
SEED = 7


class Editor:
    """An editor at random: `texts` has what the session is to hold, by path, and `versions` those of documents."""

    def __init__(self, room, client, chance):
        self.room = room
        self.client = client
        self.chance = chance
        self.texts = {}
        self.versions = {}

    def write(self, path, text):
        """Writes a file, which a document that is open and saved has, too."""
        self.room.write(**{path: text})
        self.texts[path] = text
        self.client.touch(1, path)

    def open(self, path):
        """Opens a document with the text of the disk."""
        self.versions[path] = 1
        self.client.open(path, self.texts[path])

    def close(self, path):
        """Closes a document: the session goes back to the disk's text."""
        del self.versions[path]
        self.texts[path] = self.room.read(path)
        self.client.close(path)

    def type(self, path, text):
        """Gives a document another text."""
        self.versions[path] += 1
        self.texts[path] = text
        self.client.send_change(path, self.versions[path], {"text": text})

    def save(self, path):
        """Saves a document."""
        self.room.write(**{path: self.texts[path]})
        self.client.save(path)

    def step(self):
        """Does one thing to one file."""
        path = self.chance.choice(sorted(FILES))
        text = self.chance.choice(FILES[path])
        way = self.chance.random()
        if path not in self.texts or path not in self.versions and way < 0.4:
            self.write(path, text)
        elif path not in self.versions:
            self.open(path)
        elif way < 0.1:
            self.close(path)
        elif way < 0.3:
            self.client.hover(path, self.chance.randrange(3), self.chance.randrange(20))
        else:
            self.type(path, self.chance.choice([text, text[: self.chance.randrange(len(text) + 1)]]))

    def settle(self):
        """Saves all documents, and waits for a check after that, which is the second one: the first may have been made
        before they were saved, while one had a fault that was typed."""
        for path in self.versions:
            self.save(path)
        path = max(self.versions)
        for _ in range(2):
            self.type(path, self.texts[path] + "\n")
            self.save(path)
            self.client.checked(path, self.versions[path])


def shown(client):
    """The lines that a report would have on what an editor is shown, without what names a form that is left out."""
    found = []
    for path, its in client.shown.items():
        for it in its:
            text, code = it["message"].partition(": dmypy leaves out ")[0], it.get("code")
            place = f"{path}:{it['range']['start']['line'] + 1}"
            found.append(f"{place}: error: {text}  [{code}]" if code else f"{place}: note: {text}")
    return sorted(found)


def random_edits(room, tally):
    """After edits of all kinds an editor is shown the report of a new session over the same texts."""
    chance = random.Random(SEED)
    for path in ("models.py", "shop.py"):
        (room.folder / path).unlink()
    with room.client() as client:
        client.begin()
        editor = Editor(room, client, chance)
        editor.write("base.py", FILES["base.py"][0])
        editor.open("base.py")
        for number in range(ROUNDS):
            for _ in range(EDITS):
                editor.step()
            if not editor.versions:
                editor.open(min(editor.texts))
            editor.settle()
            commands = b"".join(put("add", *it) for it in sorted(editor.texts.items())) + b"check\n"
            fresh = run(room.program, commands).decode().splitlines()[len(editor.texts) : -2]
            told = shown(client)
            tally.judge(told == sorted(fresh), f"round {number}: shown {told}, reported {fresh}")
        tally.judge(client.said == [], f"what the user is told: {client.said}")


TESTS = (random_edits,)

"""A table in rooms, as crates/spec_format/specs/Rooms.antt lays it out, and its head as the 33 numbers of crates/api_head."""
import tables

NAMES = "text", "references", "comments", "features", "qualifiers", "locations", "letters"  # of the rooms, as the vectors have them
WIDTHS = 1, 14, 2, 8, 4, 7, 1  # numbers of a row, room by room; a text and the letters are bytes


class Rooms:
    """What a table leaves in each room, and its head; nothing without a table."""

    def __init__(self, t):
        self.texts, self.letters, self.head = b"", b"", []
        self.references, self.comments, self.features, self.qualifiers, self.locations = [], [], [], [], []
        if t is not None:
            self.put(t)

    def put(self, t):
        self.head = self.perhaps(t["name"]) + [0 if t["length"] is None else t["length"] + 1] + self.perhaps(t["molecule"])
        self.head += [int(t["topology"] == "circular")] + self.always(t["division"]) + list(t["date"] or (0, 0, 0))
        for k in tables.TEXTS:
            self.head += self.perhaps(t[k])
        for r in t["references"]:
            for k in tables.REFERENCE:
                self.references += self.always(r[k]) if k in ("text", "title") else self.perhaps(r[k])
        for c in t["comments"]:
            self.comments += self.always(c)
        for f in t["features"]:
            self.features += self.always(f["kind"]) + self.always(f["location"]) + [len(self.qualifiers) // 4, len(f["qualifiers"])] + self.located(f["rows"])
            for key, value in f["qualifiers"]:
                self.qualifiers += self.always(key) + self.perhaps(value)
        self.head += [len(t["references"]), len(t["comments"]), len(t["features"])] + self.perhaps(t["contig"])
        self.head += ([0, 0] if t["contig"] is None else self.located(t["contig_rows"])) + [len(t["letters"])]
        self.letters = t["letters"]

    def always(self, text):
        """Start and length of a text that is there."""
        start = len(self.texts)
        self.texts += text
        return [start, len(text)]

    def perhaps(self, text):
        """Start and length plus one of a text that may be absent."""
        if text is None:
            return [0, 0]
        start, n = self.always(text)
        return [start, n + 1]

    def located(self, rows):
        """First and count of location rows."""
        first = len(self.locations) // 7
        self.locations += [n for row in rows for n in row]
        return [first, len(rows)]

    def rows(self):
        return [self.references, self.comments, self.features, self.qualifiers, self.locations]

    def lengths(self):
        """How long a room each part takes: bytes, and numbers of rows."""
        return [len(self.texts)] + [len(r) for r in self.rows()] + [len(self.letters)]

    def sizes(self):
        """The sizes that come with number 6: bytes, rows, letters."""
        return [n // w for n, w in zip(self.lengths(), WIDTHS)]

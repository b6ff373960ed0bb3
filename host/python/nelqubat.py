"""Reads sessions of the ISE, GEMX and MRX Top of Market feed by the proved library, with ctypes alone.

    import nelqubat

    reader = nelqubat.Reader()
    for event in reader.read("samples/open.soup"):
        if event.kind == "message" and event.message.id:
            print(reader.row(event.message.id))
    image = reader.save()
    later = nelqubat.Reader.restore(image)

Where no events are wanted, a piece is read by runs of so many packets:

    for ran in reader.runs(piece, 200):
        show(reader.rows())

How old a side is says row.bid_time or row.ask_time, the time of the latest message that set it: None where it was never quoted, and
TIME_UNKNOWN where its table was saved by a library that kept no such times (row.knows_bid_time tells).

    if row.knows_bid_time:
        age = row.time - row.bid_time

Such an old table, of version 1 or 2, is restored as any other; forward() moves it to version 3, and back() moves a table back to the old
version, for an older library, without its times.

What a call refuses is raised as Refused, with its number in document 01; a packet that a run refuses is told in its answer.
Prices are whole numbers of ten-thousandths of a dollar, above zero, or None where nobody bids or offers; a strike may be 0.
The library is the shared object that NELQUBAT_SO names, or libnelqubat.so beside this file or in target/host, where
`host/run python` builds it (x86-64).
"""

import ctypes
import os
from typing import NamedTuple, Optional

VERSION = 6
MAX_ROWS, ROW_BYTES, BLOCK_ROWS, BLOCK_BYTES = 500, 124, 4, 512
MAX_BLOCKS = 1 + (MAX_ROWS + BLOCK_ROWS - 1) // BLOCK_ROWS
HANDLE_BYTES, TABLE_BYTES, INDEX_BYTES, RECORD_BYTES = 305, MAX_ROWS * ROW_BYTES, MAX_ROWS * 2, 112
IMAGE_BYTES, LINE_BYTES, MESSAGE_BYTES = MAX_BLOCKS * BLOCK_BYTES, 80, 63
PIECE_BYTES = 65536
MAX_PACKETS = 1000
TIME_UNKNOWN = 2 ** 64 - 1
KINDS = ("more", "login", "rejected", "message", "heartbeat", "end", "skipped", "ended", "refused", "ceiling")
REFUSALS = {
    1: "packet length is 0 or over 256", 2: "packet letter is not known", 3: "packet in the wrong place",
    4: "packet has the wrong form", 5: "login for another session or number", 6: "no message number is left",
    10: "message letter is not known", 11: "message has the wrong length", 12: "message field outside its list or range",
    13: "no row has this id", 14: "instrument does not trade", 15: "directory changes a fixed field", 16: "table is full",
    20: "memory has the wrong length, is no handle or has a false index", 21: "image length is wrong", 22: "block check is wrong",
    23: "block head or version is wrong", 24: "contents break the row or block rules of the version",
    25: "output memory is too short", 26: "record breaks its field rules", 27: "ceiling is over 1,000 packets"}


class Refused(Exception):
    """A call was refused; `number` is that of document 01."""

    def __init__(self, number):
        super().__init__(f"refused {number}: {REFUSALS.get(number, 'no refusal has this number')}")
        self.number = number


class Side(NamedTuple):
    """One side of a quote. A price is in ten-thousandths of a dollar whatever the message was, and None where there is none;
    `price_on_wire` is the number that the message had, 0 for none."""

    market: int
    price: Optional[int]
    size: int
    customer: int
    professional: int
    price_on_wire: int


class SideBytes(ctypes.BigEndianStructure):
    _pack_ = 1
    _fields_ = [(name, ctypes.c_uint32) for name in ("market", "price", "size", "customer", "professional")]

    def side(self, unit):
        price = self.price * unit if self.price else None
        return Side(self.market, price, self.size, self.customer, self.professional, self.price)


def _text(count):
    return ctypes.c_uint8 * count


class _Fields(ctypes.BigEndianStructure):
    """What the fields of rows and records have in common: bytes that a person reads as letters and texts."""

    def _letter(self, name):
        value = getattr(self, name)
        return chr(value) if value else ""

    def _name(self, name):
        return bytes(getattr(self, name)).rstrip(b" ").decode("ascii", "replace")


class RecordBytes(_Fields):
    """A message's record, place by place."""

    _pack_ = 1
    _fields_ = [
        ("letter", ctypes.c_uint8), ("code", ctypes.c_uint8), ("tracking", ctypes.c_uint16), ("id", ctypes.c_uint32),
        ("time", ctypes.c_uint64), ("number", ctypes.c_uint64), ("bid", SideBytes), ("ask", SideBytes),
        ("strike", ctypes.c_uint32), ("year", ctypes.c_uint8), ("month", ctypes.c_uint8), ("day", ctypes.c_uint8),
        ("type", ctypes.c_uint8), ("closing", ctypes.c_uint8), ("tradable", ctypes.c_uint8), ("variation", ctypes.c_uint8),
        ("symbol", _text(8)), ("underlying", _text(13)), ("reserved", _text(16))]


class RowBytes(_Fields):
    """A row of the table, place by place."""

    _pack_ = 1
    _fields_ = [
        ("id", ctypes.c_uint32), ("symbol", _text(8)), ("year", ctypes.c_uint8), ("month", ctypes.c_uint8),
        ("day", ctypes.c_uint8), ("strike", ctypes.c_uint32), ("type", ctypes.c_uint8), ("underlying", _text(13)),
        ("closing", ctypes.c_uint8), ("tradable", ctypes.c_uint8), ("variation", ctypes.c_uint8), ("reserved", _text(16)),
        ("state", ctypes.c_uint8), ("condition", ctypes.c_uint8), ("sides", ctypes.c_uint8), ("gap", ctypes.c_uint8),
        ("bid", SideBytes), ("ask", SideBytes), ("tracking", ctypes.c_uint16), ("time", ctypes.c_uint64),
        ("bid_time", ctypes.c_uint64), ("ask_time", ctypes.c_uint64), ("tail", _text(2))]


class HandleBytes(ctypes.BigEndianStructure):
    """A handle, place by place."""

    _pack_ = 1
    _fields_ = [
        ("next", ctypes.c_uint64), ("live", ctypes.c_uint64), ("rows", ctypes.c_uint64), ("held", ctypes.c_uint64),
        ("session", _text(10)), ("known", ctypes.c_uint8), ("logged_in", ctypes.c_uint8), ("ended", ctypes.c_uint8),
        ("refusal", ctypes.c_uint8), ("event", ctypes.c_uint8), ("packet", _text(258))]


class Directory(NamedTuple):
    """What a directory says of an instrument; `year` has the last two digits."""

    symbol: str
    year: int
    month: int
    day: int
    strike: int
    type: str
    underlying: str
    closing: str
    tradable: str
    variation: str
    reserved: bytes


class Row(NamedTuple):
    """A copy of a row; `state` is "" before any. A side that was never quoted is None; one that was quoted with no price
    is a Side whose price is None. `time` is that of the latest message, and `bid_time` and `ask_time` those of the latest that
    set the side: None where it was never quoted, TIME_UNKNOWN where it is not known."""

    id: int
    directory: Directory
    state: str
    condition: str
    bid: Optional[Side]
    ask: Optional[Side]
    tracking: int
    time: int
    bid_time: Optional[int]
    ask_time: Optional[int]

    @property
    def knows_bid_time(self):
        """Whether the bid was quoted, and its time is known."""
        return self.bid_time is not None and self.bid_time != TIME_UNKNOWN

    @property
    def knows_ask_time(self):
        """Whether the ask was quoted, and its time is known."""
        return self.ask_time is not None and self.ask_time != TIME_UNKNOWN


class Message(NamedTuple):
    """A message. What its letter lacks is 0, "" or None; `code` is event code, state or condition."""

    letter: str
    code: str
    tracking: int
    id: int
    time: int
    number: int
    bid: Optional[Side]
    ask: Optional[Side]
    directory: Optional[Directory]
    record: bytes


class Event(NamedTuple):
    """An event: kind is login, rejected, message, heartbeat, end or skipped. A login has its number and session."""

    kind: str
    message: Optional[Message] = None
    number: int = 0
    session: bytes = b""
    reason: int = 0


class Ran(NamedTuple):
    """What a run did: why it stopped (more, ended, refused or ceiling), packets finished, bytes taken, the refusal or 0."""

    why: str
    finished: int
    taken: int
    refusal: int = 0


def _directory(b):
    return Directory(b._name("symbol"), b.year, b.month, b.day, b.strike, b._letter("type"), b._name("underlying"),
                     b._letter("closing"), b._letter("tradable"), b._letter("variation"), bytes(b.reserved))


def _row(data):
    b = RowBytes.from_buffer_copy(data)
    has_bid, has_ask = b.sides & 1, b.sides & 2
    return Row(b.id, _directory(b), b._letter("state"), b._letter("condition"), b.bid.side(1) if has_bid else None,
               b.ask.side(1) if has_ask else None, b.tracking, b.time, b.bid_time if has_bid else None,
               b.ask_time if has_ask else None)


def _message(data):
    b = RecordBytes.from_buffer_copy(data)
    letter = chr(b.letter)
    unit = 100 if letter in "qba" else 1
    return Message(letter, b._letter("code"), b.tracking, b.id, b.time, b.number,
                   b.bid.side(unit) if letter in "qQbB" else None, b.ask.side(unit) if letter in "qQaA" else None,
                   _directory(b) if letter == "m" else None, bytes(data))


def _find_library():
    here = os.path.dirname(os.path.abspath(__file__))
    places = (os.path.join(here, "libnelqubat.so"),
              os.path.join(here, "..", "..", "target", "host", "libnelqubat.so"))
    return os.environ.get("NELQUBAT_SO") or next((p for p in places if os.path.exists(p)), "libnelqubat.so")


# How many memories each call is lent, a pointer and a count for each. A line also has its number before the last, and behind them
# a find has the id and a run its ceiling.
_LENT = {"start": 3, "step": 5, "save": 3, "restore": 4, "forward": 2, "back": 2, "read": 2, "write": 2}


def _load():
    library = ctypes.CDLL(_find_library())
    memory = [ctypes.c_void_p, ctypes.c_size_t]
    for name, count in _LENT.items():
        getattr(library, "nelqubat_" + name).argtypes = memory * count
        getattr(library, "nelqubat_" + name).restype = ctypes.c_uint32
    library.nelqubat_line.argtypes = memory * 2 + [ctypes.c_size_t] + memory
    library.nelqubat_line.restype = ctypes.c_uint32
    library.nelqubat_find.argtypes = memory * 3 + [ctypes.c_uint32]
    library.nelqubat_find.restype = ctypes.c_uint32
    library.nelqubat_run.argtypes = memory * 4 + [ctypes.c_uint32]
    library.nelqubat_run.restype = ctypes.c_uint64
    library.nelqubat_version.restype = ctypes.c_uint32
    if library.nelqubat_version() != VERSION:
        raise ImportError(f"the library is of version {library.nelqubat_version()}, this module of {VERSION}")
    for name, count in (("handle", HANDLE_BYTES), ("table", TABLE_BYTES), ("index", INDEX_BYTES), ("record", RECORD_BYTES)):
        size = getattr(library, f"nelqubat_{name}_size")
        size.restype = ctypes.c_size_t
        if size() != count:
            raise ImportError(f"the library's {name} has {size()} bytes, and this module's {count}")
    return library


_library = _load()


def _memory(count):
    return (ctypes.c_uint8 * max(count, 1))()


def _lent(data):
    """Bytes as memory that can be lent, with their count."""
    memory = _memory(len(data))
    ctypes.memmove(memory, bytes(data), len(data))
    return memory, len(data)


def _done(answer):
    """The count that a call wrote; raises what it refused."""
    if answer & 0xFF:
        raise Refused(answer & 0xFF)
    return answer >> 8


def decode(data):
    """The message of these bytes, with no packet around them."""
    record = _memory(RECORD_BYTES)
    _done(_library.nelqubat_read(*_lent(data), record, RECORD_BYTES))
    return _message(record)


def encode(message):
    """The bytes of a message, from its record."""
    out = _memory(MESSAGE_BYTES)
    count = _done(_library.nelqubat_write(*_lent(message.record), out, MESSAGE_BYTES))
    return bytes(out)[:count]


def _moved(call, image):
    out = _memory(IMAGE_BYTES)
    count = _done(call(*_lent(image), out, IMAGE_BYTES))
    return bytes(out)[:count]


def forward(image):
    """A saved table of version 1 or 2 as one of version 3, where the time of each side that was quoted is unknown."""
    return _moved(_library.nelqubat_forward, image)


def back(image):
    """A saved table of version 3 as one of version 1, or 2 with more than 256 rows, without the times of its sides."""
    return _moved(_library.nelqubat_back, image)


class Reader:
    """A reader of one session, with its table of at most MAX_ROWS instruments. It is used by one thread at a time."""

    def __init__(self):
        self._handle, self._table = _memory(HANDLE_BYTES), _memory(TABLE_BYTES)
        self._index, self._event = _memory(INDEX_BYTES), _memory(RECORD_BYTES)
        self._both = (self._handle, HANDLE_BYTES, self._table, TABLE_BYTES)
        self._all = (*self._both, self._index, INDEX_BYTES)
        _done(_library.nelqubat_start(*self._all))

    @classmethod
    def restore(cls, image):
        """A reader from a saved table of any version. It waits for a login with the saved session and next number."""
        reader = cls()
        _done(_library.nelqubat_restore(*reader._all, *_lent(image)))
        return reader

    def save(self):
        """The saved table, as bytes: version 3."""
        out = _memory(IMAGE_BYTES)
        count = _done(_library.nelqubat_save(*self._both, out, IMAGE_BYTES))
        return bytes(out)[:count]

    def feed(self, piece):
        """The events of a piece of the session, as they come. Raises Refused once all before it have been told.

        A loop that is left early leaves the rest of the piece unread.
        """
        memory, count = _lent(piece)
        at = 0
        while True:
            answer = _library.nelqubat_step(*self._all, ctypes.byref(memory, at), count - at, self._event, RECORD_BYTES)
            kind = KINDS[answer >> 8 & 0xFF]
            at += answer >> 16
            if kind == "refused":
                raise Refused(answer & 0xFF)
            if kind in ("more", "ended"):
                return
            yield self._tell(kind)

    def run(self, piece, ceiling=MAX_PACKETS):
        """Reads a piece of the session until so many packets are finished, and tells no events; its answer is a Ran.

        What is not taken of the piece is to be given again. Raises Refused for a ceiling over 1,000, but not for a refused packet;
        nor for 20 behind packets that were finished, which is in the answer, and raised by the run after it.
        """
        memory, count = _lent(piece)
        return self._run(memory, 0, count, ceiling)

    def runs(self, piece, ceiling=MAX_PACKETS):
        """Runs through a piece, one after another as they are asked for, until one stops for another reason than its ceiling.

        A loop that is left early leaves the rest of the piece unread. With ceiling 0 there is one run, which takes nothing.
        """
        memory, count = _lent(piece)
        at, why = 0, "ceiling"
        while why == "ceiling":
            ran = self._run(memory, at, count, ceiling)
            at, why = at + ran.taken, ran.why if ceiling else ""
            yield ran

    def _run(self, memory, at, count, ceiling):
        if not 0 <= ceiling < 1 << 32:
            raise OverflowError(f"{ceiling} is no ceiling of 32 bits")
        answer = _library.nelqubat_run(*self._all, ctypes.byref(memory, at), count - at, ceiling)
        refusal, finished = answer & 0xFF, answer >> 16 & 0xFFFF
        if refusal >= 20 and finished == 0:
            raise Refused(refusal)
        return Ran(KINDS[answer >> 8 & 0xFF], finished, answer >> 32, refusal)

    def _tell(self, kind):
        data = bytes(self._event)
        if kind == "message":
            return Event(kind, message=_message(data))
        if kind == "login":
            return Event(kind, number=int.from_bytes(data[:8], "big"), session=data[8:18])
        return Event(kind, reason=data[0]) if kind == "rejected" else Event(kind)

    def read(self, path):
        """The events of a session file, until it runs out or the session ends."""
        with open(path, "rb") as file:
            while not self.ended:
                piece = file.read(PIECE_BYTES)
                if not piece:
                    return
                yield from self.feed(piece)

    @property
    def _head(self):
        return HandleBytes.from_buffer_copy(self._handle)

    @property
    def next(self):
        """The number of the next message that the table lacks."""
        return self._head.next

    @property
    def live(self):
        """The live number that the end of replay gave, or 0."""
        return self._head.live

    @property
    def session(self):
        """The session's name, or None before a login."""
        head = self._head
        return bytes(head.session) if head.known else None

    @property
    def ended(self):
        return bool(self._head.ended)

    @property
    def refusal(self):
        """The number of the refusal that stands, or 0."""
        return self._head.refusal

    @property
    def event_code(self):
        """The latest event code, or "" before any."""
        value = self._head.event
        return chr(value) if value else ""

    def rows(self):
        """Copies of all rows, in table order."""
        return [_row(self._row_bytes(k)) for k in range(self._head.rows)]

    def row(self, ident):
        """A copy of the row for an instrument, or None."""
        if not 0 <= ident < 1 << 32:
            raise OverflowError(f"{ident} is no id of four bytes")
        place = _done(_library.nelqubat_find(*self._all, ident))
        return _row(self._row_bytes(place - 1)) if place else None

    def _row_bytes(self, k):
        return ctypes.string_at(ctypes.addressof(self._table) + k * ROW_BYTES, ROW_BYTES)

    def listing(self):
        """The listing, as the program toplist prints it."""
        out, lines = _memory(LINE_BYTES), []
        while True:
            count = _done(_library.nelqubat_line(*self._both, len(lines), out, LINE_BYTES))
            if count == 0:
                return "".join(lines)
            lines.append(bytes(out)[:count].decode("ascii"))

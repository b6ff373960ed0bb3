#!/usr/bin/env python3
"""Tests the module: its layouts against the header, and what it reads against what the documents ask for."""

import os
import platform
import re
import sys
import unittest

HERE = os.path.dirname(os.path.abspath(__file__))
ROOT = os.path.join(HERE, "..", "..")
SAMPLES = os.path.join(ROOT, "samples")
EXAMPLES = os.path.join(HERE, "..", "examples")
HEADER = os.path.join(HERE, "..", "include", "nelqubat.h")

if platform.machine() != "x86_64":
    print(f"python: not run: this Python is for {platform.machine()}, the library for x86_64")
    sys.exit()
sys.dont_write_bytecode = True
sys.path.insert(0, HERE)
import nelqubat  # noqa: E402


def text(*path):
    with open(os.path.join(*path), "rb") as file:
        return file.read()


def header():
    return text(HEADER).decode("ascii")


def constants():
    """The header's numbers; some are counted from those before them."""
    found = {}
    for name, value in re.findall(r"\bNELQUBAT_(\w+) = ([\w +*/()-]+?) *(?:,|\n|/\*)", header()):
        found[name] = eval(value.replace("NELQUBAT_", "").replace("/", "//"), {"__builtins__": {}}, found)
    return found


def dollars(price):
    return f"{price // 10000}.{price % 10000:04}"


def age(knows, time, now):
    if not knows:
        return "?"
    micros = (now - time) // 1000
    return f"{micros // 1000000}.{micros % 1000000:06}"


def shown(side, *when):
    """A side as the example rows prints it."""
    if side is None:
        return "-"
    return ("none" if side.price is None else f"{dollars(side.price)}x{side.size}") + "@" + age(*when)


def changed(number, letter, row):
    """A line as the example rows prints it."""
    d = row.directory
    sides = (shown(row.bid, row.knows_bid_time, row.bid_time, row.time) + " "
             + shown(row.ask, row.knows_ask_time, row.ask_time, row.time))
    return (f"{number} {letter} {row.id} {d.symbol:8} {d.year:02}-{d.month:02}-{d.day:02} {d.type} {dollars(d.strike)} "
            f"{row.state or '-'} {sides}\n")


def login(session, number):
    return b"\x00\x1fA" + session + b"%20d" % number


def directory(ident):
    """The packet of a directory for an id."""
    return (b"\x00\x40Sm" + bytes(10) + ident.to_bytes(4, "big") + b"IBM     " + bytes([26, 12, 18]) + bytes(4)
            + b"CIBM          NYS" + bytes(16))


def trading(ident, state=b"T"):
    """The packet of a state for an id."""
    return b"\x00\x11SH" + bytes(10) + ident.to_bytes(4, "big") + state


def quote(letter, ident, time):
    """The packet of a short quote for an id, with price 1 on each side."""
    numbers = bytes([0, 1]) * (10 if letter == b"q" else 5)
    message = letter + bytes(2) + time.to_bytes(8, "big") + ident.to_bytes(4, "big") + b" " + numbers
    return (len(message) + 1).to_bytes(2, "big") + b"S" + message


class Layouts(unittest.TestCase):
    def places(self, prefix, structure):
        found = {name: value for name, value in constants().items() if name.startswith(prefix + "_")}
        for name, _ in structure._fields_:
            if name in ("gap", "tail"):
                continue
            self.assertEqual(getattr(structure, name).offset, found[f"{prefix}_{name.upper()}"], name)

    def test_places(self):
        self.places("ROW", nelqubat.RowBytes)
        self.places("RECORD", nelqubat.RecordBytes)
        self.places("HANDLE", nelqubat.HandleBytes)

    def test_version(self):
        self.assertIn(f"#define NELQUBAT_VERSION {nelqubat.VERSION}\n", header())
        self.assertIn("#define NELQUBAT_TIME_UNKNOWN UINT64_MAX\n", header())
        self.assertEqual(nelqubat.TIME_UNKNOWN, 0xFFFFFFFFFFFFFFFF)

    def test_sizes(self):
        for name in ("HANDLE", "TABLE", "INDEX", "RECORD", "ROW", "BLOCK", "IMAGE", "LINE", "MESSAGE"):
            self.assertEqual(getattr(nelqubat, name + "_BYTES"), constants()[name + "_BYTES"], name)
        for name in ("MAX_ROWS", "BLOCK_ROWS", "MAX_BLOCKS", "MAX_PACKETS"):
            self.assertEqual(getattr(nelqubat, name), constants()[name], name)
        for structure, size in ((nelqubat.RowBytes, 124), (nelqubat.RecordBytes, 112), (nelqubat.HandleBytes, 305)):
            self.assertEqual(nelqubat.ctypes.sizeof(structure), size)

    def test_names(self):
        for number, name in nelqubat.REFUSALS.items():
            self.assertIn(f'"{name}"', header())
            self.assertIn(number, constants().values())
        for number, kind in enumerate(nelqubat.KINDS):
            self.assertEqual(constants()[kind.upper()], number)


class Sessions(unittest.TestCase):
    def test_listings(self):
        for name, least in (("open", 500), ("cut", 500), ("whole", 500), ("suspended", 70), ("nobids", 50),
                            ("wide", 1000)):
            reader = nelqubat.Reader()
            events = sum(1 for _ in reader.read(os.path.join(SAMPLES, name + ".soup")))
            self.assertGreater(events, least)
            self.assertEqual(reader.listing().encode(), text(SAMPLES, name + ".txt"))

    def test_fault(self):
        reader = nelqubat.Reader()
        with self.assertRaises(nelqubat.Refused) as caught:
            for _ in reader.read(os.path.join(SAMPLES, "fault.soup")):
                pass
        self.assertEqual((caught.exception.number, reader.refusal), (12, 12))
        self.assertEqual(reader.listing().encode(), text(SAMPLES, "fault.txt"))

    def test_rows(self):
        reader, lines = nelqubat.Reader(), []
        for event in reader.read(os.path.join(SAMPLES, "whole.soup")):
            if event.kind == "message" and event.message.id in (40428, 40792, 41199):
                lines.append(changed(reader.next - 1, event.message.letter, reader.row(event.message.id)))
        self.assertEqual("".join(lines).encode(), text(EXAMPLES, "rows.txt"))
        self.assertIsNone(reader.row(1))
        self.assertEqual(len(reader.rows()), len(text(SAMPLES, "whole.txt").splitlines()) - 2)

    def test_rows_of_old_table(self):
        """From a table without times, as it was and moved forward."""
        for name in ("old-version-1.image", "old-version-1.moved"):
            reader, lines = nelqubat.Reader.restore(text(SAMPLES, name)), []
            for event in reader.read(os.path.join(SAMPLES, "old-version-1.soup")):
                if event.kind == "message" and event.message.id in (40428, 40792, 41199):
                    lines.append(changed(reader.next - 1, event.message.letter, reader.row(event.message.id)))
            self.assertEqual("".join(lines).encode(), text(EXAMPLES, "rows-old.txt"))

    def test_rows_without_price(self):
        reader, lines = nelqubat.Reader(), []
        for event in reader.read(os.path.join(SAMPLES, "nobids.soup")):
            if event.kind == "message" and event.message.id:
                lines.append(changed(reader.next - 1, event.message.letter, reader.row(event.message.id)))
        self.assertEqual("".join(lines).encode(), text(EXAMPLES, "rows-nobids.txt"))
        again = nelqubat.Reader.restore(reader.save())
        self.assertEqual(again.rows(), reader.rows())
        quoted, never, bid_alone = reader.row(40052), reader.row(40069), reader.row(40071)
        self.assertEqual((quoted.bid, quoted.ask), (nelqubat.Side(0, None, 0, 0, 0, 0),) * 2)
        self.assertEqual((never.bid, never.ask, never.directory.strike), (None, None, 0))
        self.assertEqual((bid_alone.bid.price, bid_alone.ask), (None, None))

    def test_found(self):
        reader = nelqubat.Reader()
        self.assertIsNone(reader.row(0))
        for _ in reader.read(os.path.join(SAMPLES, "whole.soup")):
            pass
        rows = reader.rows()
        self.assertGreater(len(rows), 1)
        for row in rows:
            self.assertEqual(reader.row(row.id), row)
        for ident in set(range(2)) | {2 ** 32 - 1} | {row.id ^ 1 << 31 for row in rows}:
            self.assertIsNone(reader.row(ident))
        for ident in (-1, 2 ** 32, 2 ** 32 + rows[0].id):
            self.assertRaises(OverflowError, reader.row, ident)

    def numbers(self, reader):
        """The row numbers in the index, place by place."""
        data = bytes(reader._index)
        return [int.from_bytes(data[at:at + 2], "big") for at in range(0, nelqubat.INDEX_BYTES, 2)]

    def true_numbers(self, reader):
        ids = [row.id for row in reader.rows()]
        return sorted(range(len(ids)), key=ids.__getitem__) + [0] * (nelqubat.MAX_ROWS - len(ids))

    def test_index(self):
        reader = nelqubat.Reader()
        self.assertEqual(self.numbers(reader), [0] * nelqubat.MAX_ROWS)
        for _ in reader.read(os.path.join(SAMPLES, "whole.soup")):
            self.assertEqual(self.numbers(reader), self.true_numbers(reader))
        self.assertGreater(len(reader.rows()), 10)
        again = nelqubat.Reader.restore(reader.save())
        self.assertEqual(self.numbers(again), self.true_numbers(reader))

    def listed(self, rows):
        """A reader of so many instruments, with ids in mixed order."""
        reader = nelqubat.Reader()
        packets = [directory((200 + 97 * k) % nelqubat.MAX_ROWS) for k in range(rows)]
        self.assertEqual(len(list(reader.feed(login(b"SESSION001", 1) + b"".join(packets)))), rows + 1)
        return reader

    def has_version(self, image, blocks, version):
        self.assertEqual(len(image), blocks * nelqubat.BLOCK_BYTES)
        for at in range(4, len(image), nelqubat.BLOCK_BYTES):
            self.assertEqual(image[at:at + 2], bytes([0, version]))

    def test_versions(self):
        """Saved, restored and resumed with an instrument more, beside the most rows of version 1 and of a table; and moved back, and
        forward again, where no side was quoted."""
        for rows, blocks, version in ((0, 1, 1), (255, 65, 1), (256, 65, 1), (257, 66, 2), (300, 76, 2), (499, 126, 2)):
            reader = self.listed(rows)
            image = reader.save()
            self.has_version(image, blocks, 3)
            old = nelqubat.back(image)
            self.has_version(old, blocks, version)
            self.assertEqual(nelqubat.forward(old), image)
            self.assertEqual(nelqubat.Reader.restore(old).rows(), reader.rows())
            again = nelqubat.Reader.restore(image)
            self.assertEqual((again.rows(), again.next, again.save()), (reader.rows(), rows + 1, image))
            self.assertEqual(self.numbers(again), self.true_numbers(reader))
            list(again.feed(login(b"SESSION001", rows + 1) + directory(nelqubat.MAX_ROWS)))
            self.assertEqual((len(again.rows()), again.row(nelqubat.MAX_ROWS)), (rows + 1, again.rows()[-1]))
            self.assertEqual(self.numbers(again), self.true_numbers(again))

    def test_full(self):
        reader = self.listed(nelqubat.MAX_ROWS)
        image, rows, numbers = reader.save(), reader.rows(), self.numbers(reader)
        self.assertEqual((len(image), len(rows)), (nelqubat.IMAGE_BYTES, nelqubat.MAX_ROWS))
        again = nelqubat.Reader.restore(image)
        list(again.feed(login(b"SESSION001", nelqubat.MAX_ROWS + 1)))
        for full in (reader, again):
            with self.assertRaises(nelqubat.Refused) as caught:
                list(full.feed(directory(nelqubat.MAX_ROWS)))
            self.assertEqual((caught.exception.number, full.refusal), (16, 16))
            self.assertEqual((full.rows(), self.numbers(full), full.save()), (rows, numbers, image))

    def test_full_sample(self):
        reader = nelqubat.Reader()
        runs = list(reader.runs(text(SAMPLES, "full.soup")))
        self.assertEqual((runs[-1].why, runs[-1].refusal), ("refused", 16))
        self.assertEqual(reader.listing().encode(), text(SAMPLES, "full.txt"))
        self.assertEqual(nelqubat.back(reader.save()), text(SAMPLES, "rows-500.image"))

    def test_sample_images(self):
        """Old tables restored, and saved as they are moved forward; and each is the saved table of its session, read so far and moved
        back."""
        for rows, name in ((256, "full"), (257, "full"), (300, "wide"), (500, "full")):
            image, rest = text(SAMPLES, f"rows-{rows}.image"), text(SAMPLES, name + ".soup")
            again, reader = nelqubat.Reader.restore(image), nelqubat.Reader()
            self.assertEqual((len(again.rows()), again.save()), (rows, nelqubat.forward(image)))
            while rest and reader.next < again.next:
                rest = rest[reader.run(rest, 1).taken:]
            self.assertEqual(nelqubat.back(reader.save()), image)
            self.assertEqual(self.numbers(again), self.numbers(reader))

    def test_sample_with_times(self):
        image, reader = text(SAMPLES, "times-300.image"), nelqubat.Reader()
        list(reader.runs(text(SAMPLES, "wide.soup")))
        self.assertEqual(reader.save(), image)
        again = nelqubat.Reader.restore(image)
        self.assertEqual((again.rows(), again.save()), (reader.rows(), image))
        self.assertEqual(nelqubat.back(image), text(SAMPLES, "rows-300.image"))

    def test_old_files(self):
        """What the program of before W-209 saved: restored, moved, moved back, and gone on to the end of the session."""
        for name, rows in (("old-version-1", 62), ("old-version-2", 300), ("old-one-side", 8)):
            image, moved = text(SAMPLES, name + ".image"), text(SAMPLES, name + ".moved")
            self.assertEqual(nelqubat.forward(image), moved)
            self.assertEqual(nelqubat.back(moved), image)
            reader, same = nelqubat.Reader.restore(image), nelqubat.Reader.restore(moved)
            self.assertEqual((reader.rows(), reader.next, reader.session), (same.rows(), same.next, same.session))
            self.assertEqual((len(reader.rows()), reader.save()), (rows, moved))
            for row in reader.rows():
                self.assertEqual(row.bid_time, row.bid and nelqubat.TIME_UNKNOWN)
                self.assertEqual(row.ask_time, row.ask and nelqubat.TIME_UNKNOWN)
            list(reader.read(os.path.join(SAMPLES, name + ".soup")))
            self.assertEqual(reader.listing().encode(), text(SAMPLES, name + ".txt"))

    def test_moves_refused(self):
        old, new = text(SAMPLES, "old-version-1.image"), text(SAMPLES, "times-300.image")
        for call, image, number in (
                (nelqubat.forward, new, 23), (nelqubat.back, old, 23), (nelqubat.forward, b"", 21), (nelqubat.back, new[:-1], 21),
                (nelqubat.forward, old[:600] + b"X" + old[601:], 22), (nelqubat.back, new[:600] + b"X" + new[601:], 22),
                (nelqubat.forward, bytes(512), 23), (nelqubat.back, bytes(512), 23), (nelqubat.back, new + bytes(65536), 21)):
            with self.assertRaises(nelqubat.Refused) as caught:
                call(image)
            self.assertEqual(caught.exception.number, number)

    def test_times(self):
        """Each side has the time of the latest message that set it; never quoted, unknown and known are told apart."""
        reader = nelqubat.Reader()
        list(reader.feed(login(b"SESSION001", 1) + directory(7) + trading(7)))
        self.assertEqual((reader.row(7).bid_time, reader.row(7).ask_time), (None, None))
        for letter, time, bid, ask in ((b"b", 0, 0, None), (b"a", 20, 0, 20), (b"a", 30, 0, 30), (b"q", 40, 40, 40), (b"b", 5, 5, 40)):
            list(reader.feed(quote(letter, 7, time)))
            row = reader.row(7)
            self.assertEqual((row.time, row.bid_time, row.ask_time), (time, bid, ask))
            self.assertEqual((row.knows_bid_time, row.knows_ask_time), (True, ask is not None))
        later = nelqubat.Reader.restore(nelqubat.back(reader.save()))
        row = later.row(7)
        self.assertEqual((row.time, row.bid_time, row.ask_time), (5, nelqubat.TIME_UNKNOWN, nelqubat.TIME_UNKNOWN))
        self.assertEqual((row.bid, row.ask, row.knows_bid_time, row.knows_ask_time), (reader.row(7).bid, reader.row(7).ask, False, False))
        list(later.feed(login(b"SESSION001", later.next) + quote(b"a", 7, 60)))
        self.assertEqual((later.row(7).knows_bid_time, later.row(7).ask_time), (False, 60))
        self.assertNotEqual(nelqubat.forward(nelqubat.back(later.save())), later.save())
        list(later.feed(directory(7).replace(b"NYS", b"NNS")))
        self.assertEqual((later.row(7).bid_time, later.row(7).ask_time, later.row(7).knows_bid_time), (None, None, False))

    def refused_20(self, call, *arguments):
        with self.assertRaises(nelqubat.Refused) as caught:
            call(*arguments)
        self.assertEqual(caught.exception.number, 20)

    def test_false_index(self):
        rest = text(SAMPLES, "whole.soup")
        reader = nelqubat.Reader()
        while len(reader.rows()) < 2:
            rest = rest[reader.run(rest, 1).taken:]
        row, kept = reader.rows()[0], bytes(reader._index)
        reader._index[:4] = b"\xff" * 4
        self.refused_20(reader.row, row.id)
        heartbeats = b"\x00\x01H" * 3
        self.assertEqual(reader.run(heartbeats + rest), nelqubat.Ran("refused", 3, len(heartbeats), 20))
        self.refused_20(reader.run, rest)
        self.refused_20(lambda: list(reader.feed(rest)))
        self.assertEqual(reader.refusal, 0)
        reader._index[:] = kept
        list(reader.feed(rest))
        self.assertEqual(reader.listing().encode(), text(SAMPLES, "whole.txt"))

    def test_no_handle(self):
        reader = nelqubat.Reader()
        reader._handle[42] = 2
        self.refused_20(reader.row, 0)

    def test_resumed(self):
        session, whole = text(SAMPLES, "whole.soup"), nelqubat.Reader()
        list(whole.feed(session))
        for stop in (1, 300, 610):
            reader, at = nelqubat.Reader(), 0
            while reader.next <= stop:
                end = at + 2 + int.from_bytes(session[at:at + 2], "big")
                list(reader.feed(session[at:end]))
                at = end
            again = nelqubat.Reader.restore(reader.save())
            first = list(again.feed(login(again.session, again.next)))
            self.assertEqual(first, [nelqubat.Event("login", number=reader.next, session=reader.session)])
            list(again.feed(session[at:]))
            self.assertTrue(again.ended)
            self.assertEqual(again.listing().encode(), text(SAMPLES, "whole.txt"))
            self.assertEqual(again.rows(), whole.rows())

    def test_runs(self):
        session = text(SAMPLES, "whole.soup")
        events = sum(1 for _ in nelqubat.Reader().feed(session))
        for ceiling in (1, 2, 7, events - 1, events, events + 1, 1000):
            reader = nelqubat.Reader()
            runs = list(reader.runs(session, ceiling))
            self.assertEqual(sum(ran.finished for ran in runs), events)
            self.assertEqual(sum(ran.taken for ran in runs), len(session))
            self.assertEqual([ran.why for ran in runs], ["ceiling"] * (len(runs) - 1) + ["ended"])
            self.assertEqual([ran.finished for ran in runs[:-1]], [ceiling] * (len(runs) - 1))
            self.assertEqual(reader.listing().encode(), text(SAMPLES, "whole.txt"))
            self.assertEqual(reader.run(session, 5), nelqubat.Ran("ended", 0, 0))

    def test_run_stops(self):
        heartbeat, cut = b"\x00\x01H", b"\x00\x04+a"
        reader = nelqubat.Reader()
        self.assertEqual(reader.run(heartbeat * 3, 0), nelqubat.Ran("ceiling", 0, 0))
        self.assertEqual(list(reader.runs(heartbeat * 3, 0)), [nelqubat.Ran("ceiling", 0, 0)])
        self.assertEqual(reader.run(heartbeat * 3, 2), nelqubat.Ran("ceiling", 2, 6))
        self.assertEqual(reader.run(heartbeat * 1001), nelqubat.Ran("ceiling", 1000, 3000))
        self.assertEqual(reader.run(heartbeat + cut), nelqubat.Ran("more", 1, 7))
        self.assertEqual(reader.run(b""), nelqubat.Ran("more", 0, 0))
        self.assertEqual(reader.run(b"bc" + heartbeat + b"\x00\x02JA", 3), nelqubat.Ran("ended", 3, 9))

    def test_run_refused(self):
        reader = nelqubat.Reader()
        runs = list(reader.runs(text(SAMPLES, "fault.soup"), 50))
        self.assertEqual((runs[-1].why, runs[-1].refusal, reader.refusal), ("refused", 12, 12))
        self.assertEqual(reader.listing().encode(), text(SAMPLES, "fault.txt"))
        self.assertEqual(reader.run(b"\x00\x01H", 0), nelqubat.Ran("refused", 0, 0, 12))
        for ceiling in (1001, 65537, 2 ** 32 - 1):
            with self.assertRaises(nelqubat.Refused) as caught:
                reader.run(b"\x00\x01H", ceiling)
            self.assertEqual(caught.exception.number, 27)
        for ceiling in (-1, 2 ** 32):
            self.assertRaises(OverflowError, reader.run, b"", ceiling)
        reader._handle[42] = 2
        with self.assertRaises(nelqubat.Refused) as caught:
            reader.run(b"", 1001)
        self.assertEqual(caught.exception.number, 20)

    def test_images_refused(self):
        most, block = nelqubat.IMAGE_BYTES, nelqubat.BLOCK_BYTES
        for image, number in ((b"", 21), (bytes(511), 21), (b"\x01" * 512, 22), (bytes(512), 23), (bytes(most), 23),
                              (bytes(most + block), 21), (text(SAMPLES, "rows-500.image") + bytes(block), 21)):
            with self.assertRaises(nelqubat.Refused) as caught:
                nelqubat.Reader.restore(image)
            self.assertEqual(caught.exception.number, number)


class Messages(unittest.TestCase):
    # b of document 01's C10: 125 pennies, at the time of C8
    BID = b"b" + bytes.fromhex("0102 00001f1ad635bd15 00000007") + b" " + bytes.fromhex("0001 007d 000a 0002 0003")

    def test_round_trip(self):
        message = nelqubat.decode(self.BID)
        self.assertEqual((message.letter, message.code, message.tracking, message.id), ("b", " ", 258, 7))
        self.assertEqual(message.time, 34200123456789)
        self.assertEqual(message.bid, nelqubat.Side(1, 12500, 10, 2, 3, 125))
        self.assertIsNone(message.ask)
        self.assertEqual(nelqubat.encode(message), self.BID)

    def test_prices(self):
        """None, 1 and the highest, in pennies and in ten-thousandths."""
        for letter, width, number, price in (
                ("b", 2, 0, None), ("b", 2, 1, 100), ("b", 2, 65535, 6553500),
                ("a", 2, 0, None), ("a", 2, 1, 100), ("a", 2, 65535, 6553500),
                ("B", 4, 0, None), ("B", 4, 1, 1), ("B", 4, 2147483647, 2147483647),
                ("A", 4, 0, None), ("A", 4, 1, 1), ("A", 4, 2147483647, 2147483647)):
            numbers = b"".join(n.to_bytes(width, "big") for n in (1, number, 10, 2, 3))
            message = nelqubat.decode(letter.encode() + self.BID[1:16] + numbers)
            side, other = (message.bid, message.ask) if letter in "bB" else (message.ask, message.bid)
            self.assertEqual((side, other), (nelqubat.Side(1, price, 10, 2, 3, number), None))
            self.assertEqual(nelqubat.encode(message), letter.encode() + self.BID[1:16] + numbers)

    def test_one_side_without_price(self):
        for bid, ask in ((0, 5), (5, 0)):
            numbers = b"".join(n.to_bytes(2, "big") for n in (1, bid, 10, 2, 3, 1, ask, 10, 2, 3))
            message = nelqubat.decode(b"q" + self.BID[1:16] + numbers)
            self.assertEqual((message.bid.price, message.ask.price), (bid * 100 or None, ask * 100 or None))
            self.assertEqual((message.bid.price_on_wire, message.ask.price_on_wire), (bid, ask))

    def test_price_over_highest(self):
        place = nelqubat.RecordBytes.bid.offset + nelqubat.SideBytes.price.offset
        for data, over in ((self.BID, 65536), (b"B" + self.BID[1:16] + bytes(20), 2147483648)):
            message = nelqubat.decode(data)
            record = message.record[:place] + over.to_bytes(4, "big") + message.record[place + 4:]
            with self.assertRaises(nelqubat.Refused) as caught:
                nelqubat.encode(message._replace(record=record))
            self.assertEqual(caught.exception.number, 26)

    def test_refused(self):
        for data, number in ((b"", 10), (b"b", 11), (self.BID.replace(b" ", b"?"), 12)):
            with self.assertRaises(nelqubat.Refused) as caught:
                nelqubat.decode(data)
            self.assertEqual(caught.exception.number, number)


if __name__ == "__main__":
    result = unittest.main(exit=False, verbosity=0).result
    if result.wasSuccessful():
        print(f"python: all {result.testsRun} tests hold")
    sys.exit(not result.wasSuccessful())

#!/usr/bin/env python3
"""Restores a package of cook where cook itself is gone.

Use: uncook.py PKG DIR

It needs Python 3.9 or later and nothing else, and is slow and plain. It follows docs/FORMAT.md and the standards which that page
names, and was written apart from the program, as a second reading of them: EBML (RFC 8794), Matroska (RFC 9559), FFV1
(RFC 9043), FLAC (RFC 9639), and DPX (SMPTE ST 268). FORMAT.md says what each reason means.

Every file is checked whole before it is created, nothing is written outside DIR, and no file may stand in DIR. It prints one
line, and ends with 0 (restored), 1 (the words are no order), 3 (the package is refused), 4 (something is in the way),
5 (reading or writing failed, which standard error says), 6 (no memory), 7 (restored, but the line couldn't be written) or 9 (the
package isn't there). After a refusal the files before the faulty one stand.
"""

import binascii
import hashlib
import os
import stat
import struct
import sys
from array import array
from typing import NamedTuple, Optional

PIECE = 1 << 20  # how many bytes of a long content are read at once
MOST_KEPT = 1 << 28  # a longer content isn't kept in memory: it is worked out for its check, and again while it is written


class Refused(Exception):
    """The end of the program: its status and the reason."""

    def __init__(self, status, reason):
        super().__init__(reason)
        self.status = status
        self.reason = reason


class FileFault(Exception):
    """Why a file isn't restored: one of the words of FORMAT.md."""


class Broken(Exception):
    """Bytes that break a rule of their format. Whoever reads them says which word that is."""


def package_refused(reason):
    return Refused(3, "package: " + reason)


def require(holds):
    if not holds:
        raise Broken


# ---- elements (RFC 8794) ----

EBML = 0x1A45DFA3
EBML_READ_VERSION = 0x42F7
MAX_ID_LENGTH = 0x42F2
MAX_SIZE_LENGTH = 0x42F3
DOC_TYPE = 0x4282
DOC_TYPE_READ_VERSION = 0x4285
SEGMENT = 0x18538067
TRACKS = 0x1654AE6B
TRACK_ENTRY = 0xAE
TRACK_NUMBER = 0xD7
CODEC_ID = 0x86
CODEC_PRIVATE = 0x63A2
CONTENT_ENCODINGS = 0x6D80
VIDEO = 0xE0
PIXEL_WIDTH = 0xB0
PIXEL_HEIGHT = 0xBA
CLUSTER = 0x1F43B675
CRC_32 = 0xBF
SIMPLE_BLOCK = 0xA3
BLOCK_GROUP = 0xA0
BLOCK = 0xA1
ATTACHMENTS = 0x1941A469
ATTACHED_FILE = 0x61A7
FILE_NAME = 0x466E
FILE_MEDIA_TYPE = 0x4660
FILE_DATA = 0x465C
INFO = 0x1549A966
SEEK_HEAD = 0x114D9B74
CUES = 0x1C53BB6B
TAGS = 0x1254C367
CHAPTERS = 0x1043A770

# What ends a Cluster of unknown size.
CLUSTER_ENDS = {CLUSTER, TRACKS, ATTACHMENTS, INFO, SEEK_HEAD, CUES, TAGS, CHAPTERS}

# What a header may say, and what it says where its number is empty.
HEADER_NUMBERS = {
    EBML_READ_VERSION: (range(1, 2), 1),
    MAX_ID_LENGTH: (range(0, 5), 4),
    MAX_SIZE_LENGTH: (range(0, 9), 8),
    DOC_TYPE_READ_VERSION: (range(0, 5), 1),
}

SIDE_DATA = b"application/x-cook-rev"
CODECS = {b"V_FFV1": "frames", b"A_FLAC": "sound"}


class Element(NamedTuple):
    """An element: where it stands, where its content starts, and where that ends, which is None where its size is unknown."""

    identifier: int
    place: int
    start: int
    end: Optional[int]


def bad_structure(place):
    return package_refused(f"bad structure at byte {place}")


def number_length(first):
    """How many bytes an identifier or a size has, by its first byte; 9 where it is neither."""
    return 9 - first.bit_length()


def size_of(data):
    """The number that a size spells, or None where it is unknown."""
    most = (1 << 7 * len(data)) - 1
    size = int.from_bytes(data, "big") & most
    return None if size == most else size


class Package:
    """The bytes of a package."""

    def __init__(self, file):
        self.file = file
        self.length = file.seek(0, os.SEEK_END)

    def read(self, start, end):
        self.file.seek(start)
        data = self.file.read(end - start)
        if len(data) < end - start:
            raise OSError("the package has become shorter")
        return data

    def pieces(self, start, end):
        for place in range(start, end, PIECE):
            yield self.read(place, min(end, place + PIECE))

    def element(self, place, end):
        """The element at a place of its parent, which ends at `end`."""
        data = self.read(place, min(end, place + 12))
        length = number_length(data[0])
        if length > 4 or length >= len(data):
            raise bad_structure(place)
        both = length + number_length(data[length])
        if both > length + 8 or both > len(data):
            raise bad_structure(place)
        size = size_of(data[length:both])
        start = place + both
        if size is not None and size > end - start:
            raise bad_structure(place)
        return Element(int.from_bytes(data[:length], "big"), place, start, None if size is None else start + size)

    def children(self, parent):
        """The elements in a parent, none of unknown size."""
        place = parent.start
        while place < parent.end:
            child = self.element(place, parent.end)
            if child.end is None:
                raise bad_structure(place)
            yield child
            place = child.end

    def number(self, element, empty=0):
        if element.end - element.start > 8:
            raise bad_structure(element.place)
        if element.end == element.start:
            return empty
        return int.from_bytes(self.read(element.start, element.end), "big")

    def short_bytes(self, element):
        """The bytes of a name or the like. Of one that is too long to be any of ours the end is left out."""
        return self.read(element.start, min(element.end, element.start + 1025))


# ---- the outline of a package (RFC 9559) ----


class Track(NamedTuple):
    number: int
    kind: str
    private: bytes
    width: int
    height: int


class Block(NamedTuple):
    """The bytes of a block, and the Cluster that it stands in."""

    start: int
    end: int
    cluster: "Cluster"


class Attachment(NamedTuple):
    name: bytes
    media_type: bytes
    start: int
    end: int


class Cluster:
    """A Cluster and its checksum, which is looked at when a block is used."""

    def __init__(self, package):
        self.package = package
        self.checksum = None
        self.start = 0
        self.end = 0
        self.damaged = None

    def is_damaged(self):
        if self.checksum is None:
            return False
        if self.damaged is None:
            found = 0
            for piece in self.package.pieces(self.start, self.end):
                found = binascii.crc32(piece, found)
            self.damaged = self.checksum != found
        return self.damaged


class Outline:
    """What stands where in a package: its tracks, the blocks of each, and its attachments, in order of place."""

    def __init__(self, package):
        self.package = package
        self.tracks = {}
        self.blocks = {}
        self.attachments = []
        self.read_all()

    def read_all(self):
        length = self.package.length
        if length == 0:
            raise bad_structure(0)
        header = self.package.element(0, length)
        if header.identifier != EBML or header.end is None:
            raise bad_structure(0)
        self.read_header(header)
        if header.end == length:
            raise bad_structure(length)
        segment = self.package.element(header.end, length)
        if segment.identifier != SEGMENT:
            raise bad_structure(segment.place)
        if segment.end is None:
            segment = segment._replace(end=length)
        self.read_segment(segment)
        if segment.end < length:
            raise bad_structure(segment.end)

    def read_header(self, header):
        is_named = False
        for child in self.package.children(header):
            if child.identifier == DOC_TYPE:
                is_named = True
                if self.package.short_bytes(child) != b"matroska":
                    raise bad_structure(child.place)
            elif child.identifier in HEADER_NUMBERS:
                allowed, empty = HEADER_NUMBERS[child.identifier]
                if self.package.number(child, empty) not in allowed:
                    raise bad_structure(child.place)
        if not is_named:
            raise bad_structure(0)

    def read_segment(self, segment):
        seen = set()
        place = segment.start
        while place < segment.end:
            child = self.package.element(place, segment.end)
            if child.end is None and child.identifier != CLUSTER:
                raise bad_structure(place)
            if child.identifier in (TRACKS, ATTACHMENTS):
                if child.identifier in seen:
                    raise bad_structure(place)
                seen.add(child.identifier)
            place = self.read_child(child, segment.end)

    def read_child(self, child, end):
        """Reads a child of the Segment and tells where it ends."""
        if child.identifier == CLUSTER:
            return self.read_cluster(child, end)
        if child.identifier == TRACKS:
            for entry in self.package.children(child):
                if entry.identifier == TRACK_ENTRY:
                    self.read_track(entry)
        if child.identifier == ATTACHMENTS:
            for entry in self.package.children(child):
                if entry.identifier == ATTACHED_FILE:
                    self.read_attachment(entry)
        return child.end

    def read_track(self, entry):
        found = {}
        for child in self.package.children(entry):
            found.setdefault(child.identifier, child)
            if child.identifier == TRACK_NUMBER:
                self.package.number(child)
            if child.identifier == VIDEO:
                self.read_video(child)
        if TRACK_NUMBER not in found or CODEC_ID not in found:
            raise bad_structure(entry.place)
        number = self.package.number(found[TRACK_NUMBER])
        if number == 0 or number in self.tracks:
            raise bad_structure(entry.place)
        if CONTENT_ENCODINGS in found:
            raise package_refused(f"encoded track {number}")
        kind = CODECS.get(self.package.short_bytes(found[CODEC_ID]))
        if kind is None:
            raise package_refused(f"unknown track {number}")
        private = found.get(CODEC_PRIVATE)
        width, height = self.read_video(found[VIDEO]) if VIDEO in found else (0, 0)
        self.tracks[number] = Track(number, kind, self.package.read(private.start, private.end) if private else b"", width, height)
        self.blocks[number] = []

    def read_video(self, video):
        """The width and the height, which are 0 where they are absent."""
        found = {}
        for child in self.package.children(video):
            if child.identifier in (PIXEL_WIDTH, PIXEL_HEIGHT):
                found.setdefault(child.identifier, self.package.number(child))
        return found.get(PIXEL_WIDTH, 0), found.get(PIXEL_HEIGHT, 0)

    def read_attachment(self, entry):
        found = {}
        for child in self.package.children(entry):
            found.setdefault(child.identifier, child)
        if not {FILE_NAME, FILE_MEDIA_TYPE, FILE_DATA} <= found.keys():
            raise bad_structure(entry.place)
        name = self.package.short_bytes(found[FILE_NAME])
        media_type = self.package.short_bytes(found[FILE_MEDIA_TYPE])
        self.attachments.append(Attachment(name, media_type, found[FILE_DATA].start, found[FILE_DATA].end))

    def read_cluster(self, element, end):
        """Reads a Cluster and tells where it ends. One of unknown size ends before what can't be in a Cluster."""
        cluster = Cluster(self.package)
        place = element.start
        limit = end if element.end is None else element.end
        while place < limit:
            child = self.package.element(place, limit)
            if element.end is None and child.identifier in CLUSTER_ENDS:
                break
            if child.end is None:
                raise bad_structure(place)
            if place == element.start and child.identifier == CRC_32 and child.end - child.start == 4:
                cluster.checksum = int.from_bytes(self.package.read(child.start, child.end), "little")
                cluster.start = child.end
            self.read_cluster_child(child, cluster)
            place = child.end
        cluster.end = place
        return place

    def read_cluster_child(self, child, cluster):
        if child.identifier == SIMPLE_BLOCK:
            self.read_block(child, cluster)
        if child.identifier == BLOCK_GROUP:
            count = 0
            for block in self.package.children(child):
                if block.identifier == BLOCK:
                    count += 1
                    self.read_block(block, cluster)
            if count != 1:
                raise bad_structure(child.place)

    def read_block(self, element, cluster):
        data = self.package.read(element.start, min(element.end, element.start + 11))
        length = number_length(data[0]) if data else 9
        if length > 8 or len(data) < length + 3:
            raise bad_structure(element.place)
        number = size_of(data[:length])
        is_laced = data[length + 2] & 6
        if number not in self.tracks or is_laced:
            raise bad_structure(element.place)
        self.blocks[number].append(Block(element.start + length + 3, element.end, cluster))


# ---- side data ----

OTHER, FRAME, WAVE = 0, 1, 2


class Record(NamedTuple):
    """What the side data tells of a file. Head, pads and tail are places in the package: where they start and end."""

    kind: int
    name: bytes
    length: int
    sum: bytes
    track: int = 0
    index: int = 0
    head: tuple = (0, 0)
    pads: tuple = (0, 0)
    tail: tuple = (0, 0)


class SideData:
    """Reads side data field by field."""

    def __init__(self, package, start, end):
        self.package = package
        self.start = start
        self.end = end
        self.place = start
        self.field = start

    def bad(self):
        return package_refused(f"bad side data at byte {self.field - self.start}")

    def check(self, holds):
        if not holds:
            raise self.bad()

    def begin(self):
        """The next field begins here."""
        self.field = self.place

    def skip(self, count):
        """Where the next bytes stand."""
        self.check(count <= self.end - self.place)
        self.place += count
        return self.place - count, self.place

    def take(self, count):
        return self.package.read(*self.skip(count))

    def number(self, count):
        return int.from_bytes(self.take(count), "big")

    def records(self):
        self.check(self.take(8) == b"COOKREV\x01")
        self.begin()
        records = [self.record() for _ in range(self.number(4))]
        self.begin()
        self.check(self.place == self.end)
        return records

    def record(self):
        self.begin()
        kind = self.number(1)
        self.check(kind in (OTHER, FRAME, WAVE))
        self.begin()
        name = self.name()
        self.begin()
        length = self.number(8)
        self.begin()
        record = Record(kind, name, length, self.take(16))
        return record if kind == OTHER else self.record_of_track(record)

    def record_of_track(self, record):
        self.begin()
        track = self.number(1)
        self.check(1 <= track <= 126)
        record = record._replace(track=track)
        if record.kind == FRAME:
            self.begin()
            record = record._replace(index=self.number(4))
        record = record._replace(head=self.long_bytes())
        if record.kind == FRAME:
            record = record._replace(pads=self.pads())
        return record._replace(tail=self.long_bytes())

    def name(self):
        name = self.take(self.number(2))
        try:
            name.decode("utf-8")
        except UnicodeDecodeError:
            raise self.bad() from None
        return name

    def long_bytes(self):
        self.begin()
        return self.skip(self.number(8))

    def pads(self):
        self.begin()
        form = self.number(1)
        self.check(form in (0, 1, 2))
        if form == 1:
            for _ in range(self.number(4)):
                self.check(self.number(4) > 0)
                self.skip(1)
        elif form == 2:
            self.skip(self.number(4))
        return self.field, self.place


def folders_of(name):
    """The proper folders of a name, the shortest first."""
    return [name[:place] for place in range(len(name)) if name[place : place + 1] == b"/"]


def is_relative(name):
    segments = name.split(b"/")
    return 1 <= len(name) <= 1024 and b"\0" not in name and not any(one in (b"", b".", b"..") for one in segments)


def check_names(records):
    """The names rise, lead nowhere else, and none is a folder of another."""
    held = set()
    before = b""
    for record in records:
        name = record.name
        if not is_relative(name) or name <= before or any(folder in held for folder in folders_of(name)):
            raise package_refused("bad side name " + name.decode("utf-8"))
        held.add(name)
        before = name


# ---- checksums ----


def crc_table(polynomial, bits):
    """The remainders of all bytes, the most significant bit first."""
    table = []
    for byte in range(256):
        rest = byte << bits - 8
        for _ in range(8):
            rest = rest << 1 ^ (polynomial if rest >> bits - 1 else 0)
        table.append(rest)
    return table


CRC_8 = crc_table(0x107, 8)
CRC_16 = crc_table(0x18005, 16)
CRC_32_HIGH = crc_table(0x104C11DB7, 32)


def crc_8(data):
    rest = 0
    for byte in data:
        rest = CRC_8[rest ^ byte]
    return rest


def crc_16(data):
    rest = 0
    for byte in data:
        rest = (rest << 8 & 0xFFFF) ^ CRC_16[rest >> 8 ^ byte]
    return rest


def crc_32_high(data):
    rest = 0
    for byte in data:
        rest = (rest << 8 & 0xFFFFFFFF) ^ CRC_32_HIGH[rest >> 24 ^ byte]
    return rest


# ---- FFV1: coded numbers (RFC 9043, section 3.8.1) ----

# fmt: off
ONE_STATE = [
      0,   0,   0,   0,   0,   0,   0,   0,  20,  21,  22,  23,  24,  25,  26,  27,
     28,  29,  30,  31,  32,  33,  34,  35,  36,  37,  37,  38,  39,  40,  41,  42,
     43,  44,  45,  46,  47,  48,  49,  50,  51,  52,  53,  54,  55,  56,  56,  57,
     58,  59,  60,  61,  62,  63,  64,  65,  66,  67,  68,  69,  70,  71,  72,  73,
     74,  75,  75,  76,  77,  78,  79,  80,  81,  82,  83,  84,  85,  86,  87,  88,
     89,  90,  91,  92,  93,  94,  94,  95,  96,  97,  98,  99, 100, 101, 102, 103,
    104, 105, 106, 107, 108, 109, 110, 111, 112, 113, 114, 114, 115, 116, 117, 118,
    119, 120, 121, 122, 123, 124, 125, 126, 127, 128, 129, 130, 131, 132, 133, 133,
    134, 135, 136, 137, 138, 139, 140, 141, 142, 143, 144, 145, 146, 147, 148, 149,
    150, 151, 152, 152, 153, 154, 155, 156, 157, 158, 159, 160, 161, 162, 163, 164,
    165, 166, 167, 168, 169, 170, 171, 171, 172, 173, 174, 175, 176, 177, 178, 179,
    180, 181, 182, 183, 184, 185, 186, 187, 188, 189, 190, 190, 191, 192, 194, 194,
    195, 196, 197, 198, 199, 200, 201, 202, 202, 204, 205, 206, 207, 208, 209, 209,
    210, 211, 212, 213, 215, 215, 216, 217, 218, 219, 220, 220, 222, 223, 224, 225,
    226, 227, 227, 229, 229, 230, 231, 232, 234, 234, 235, 236, 237, 238, 239, 240,
    241, 242, 243, 244, 245, 246, 247, 248, 248,   0,   0,   0,   0,   0,   0,   0,
]
# fmt: on


def fresh_states():
    return bytearray([128] * 32)


class RangeDecoder:
    """Reads bits and numbers, each with a state of its own that learns how likely the bit is. Zeros stand behind the bytes."""

    def __init__(self, data, one_state):
        self.data = data
        self.place = 2
        self.one_state = one_state
        self.zero_state = [0] + [256 - one_state[256 - state] for state in range(1, 256)]
        self.range = 0xFF00
        self.low = int.from_bytes(data[:2] + bytes(2 - len(data[:2])), "big")
        require(self.low < self.range)

    def bit(self, states, at):
        state = states[at]
        share = self.range * state >> 8
        rest = self.range - share
        if self.low < rest:
            self.range = rest
            states[at] = self.zero_state[state]
            bit = 0
        else:
            self.low -= rest
            self.range = share
            states[at] = self.one_state[state]
            bit = 1
        if self.range < 256:
            self.range <<= 8
            self.low <<= 8
            if self.place < len(self.data):
                self.low += self.data[self.place]
                self.place += 1
        return bit

    def number(self, states, is_signed=False):
        if self.bit(states, 0):
            return 0
        exponent = 0
        while self.bit(states, 1 + min(exponent, 9)):
            exponent += 1
            require(exponent <= 30)
        number = 1
        for place in range(exponent - 1, -1, -1):
            number = 2 * number + self.bit(states, 22 + min(place, 9))
        if is_signed and self.bit(states, 11 + min(exponent, 10)):
            return -number
        return number


# ---- FFV1: the configuration record (RFC 9043, section 4.3) ----


class Parameters(NamedTuple):
    one_state: list
    bits: int
    columns: int
    rows: int
    sets: list  # of quantization tables: five tables and how many contexts they make
    has_checksums: bool


def read_parameters(record):
    """The parameters, by a range decoder that is handed the record without its checksum."""
    require(len(record) >= 4 and crc_32_high(record) == 0)
    decoder = RangeDecoder(record[:-4], ONE_STATE)
    states = fresh_states()
    version, micro_version, coder = (decoder.number(states) for _ in range(3))
    require(version == 3 and micro_version >= 4 and coder in (1, 2))
    one_state = read_one_state(decoder, states) if coder == 2 else ONE_STATE
    bits = read_colour(decoder, states)
    columns = decoder.number(states) + 1
    rows = decoder.number(states) + 1
    require(columns * rows <= 1024)
    count = decoder.number(states)
    require(1 <= count <= 8)
    sets = [read_tables(decoder) for _ in range(count)]
    for _ in range(count):
        has_states = decoder.bit(states, 0)
        require(not has_states)
    has_checksums = decoder.number(states)
    is_intra = decoder.number(states)
    require(has_checksums in (0, 1) and is_intra in (0, 1))
    return Parameters(one_state, bits, columns, rows, sets, has_checksums == 1)


def read_one_state(decoder, states):
    table = [0]
    for default in ONE_STATE[1:]:
        table.append(default + decoder.number(states, True))
        require(1 <= table[-1] <= 255)
    return table


def read_colour(decoder, states):
    """The bits of a sample. Only RGB without subsampling and without transparency is ours."""
    colour_space = decoder.number(states)
    bits = decoder.number(states) or 8
    decoder.bit(states, 0)  # chroma_planes
    horizontal, vertical = decoder.number(states), decoder.number(states)
    has_alpha = decoder.bit(states, 0)
    require(colour_space == 1 and bits in (8, 10, 12, 16) and horizontal == vertical == has_alpha == 0)
    return bits


def read_tables(decoder):
    tables = []
    scale = 1
    for _ in range(5):
        table, runs = read_table(decoder, scale)
        tables.append(table)
        scale *= 2 * runs - 1
    contexts = (scale + 1) // 2
    require(contexts <= 32768)
    return tables, contexts


def read_table(decoder, scale):
    """A quantization table: runs of rising multiples of the scale, and their mirror."""
    states = fresh_states()
    half = []
    runs = 0
    while len(half) < 128:
        length = decoder.number(states) + 1
        require(length <= 128 - len(half))
        half += [runs * scale] * length
        runs += 1
    return half + [-half[127]] + [-half[256 - place] for place in range(129, 256)], runs


# ---- FFV1: frames and slices (RFC 9043, sections 4.4 to 4.8) ----


class SliceHeader(NamedTuple):
    """Where a slice stands in the grid, and its sets of quantization tables."""

    column: int
    row: int
    columns: int
    rows: int
    sets: list


def cut_frame(parameters, data):
    """The slices of a frame, by the footers that stand behind them."""
    slices = []
    footer = 8 if parameters.has_checksums else 3
    end = len(data)
    require(end > 0)
    while end > 0:
        require(end >= footer)
        size = int.from_bytes(data[end - footer : end - footer + 3], "big")
        require(0 < size <= end - footer and len(slices) < 1024)
        start = end - footer - size
        require(not parameters.has_checksums or crc_32_high(data[start:end]) == 0)
        slices.append(data[start : start + size])
        end = start
    return slices[::-1]


def begin_slice(parameters, data, is_first):
    """A decoder behind the header of a slice, and the header."""
    decoder = RangeDecoder(data, parameters.one_state)
    if is_first:
        is_key_frame = decoder.bit(fresh_states(), 0)
        require(is_key_frame)
    states = fresh_states()
    column, row = decoder.number(states), decoder.number(states)
    columns, rows = decoder.number(states) + 1, decoder.number(states) + 1
    require(column + columns <= parameters.columns and row + rows <= parameters.rows)
    sets = []
    for _ in range(2):
        sets.append(decoder.number(states))
        require(sets[-1] < len(parameters.sets))
    for _ in range(3):
        decoder.number(states)  # picture_structure, sar_num and sar_den
    return decoder, SliceHeader(column, row, columns, rows, sets)


def check_grid(parameters, headers):
    """The slices cover each cell of the grid once."""
    cells = [
        (column, row)
        for header in headers
        for row in range(header.row, header.row + header.rows)
        for column in range(header.column, header.column + header.columns)
    ]
    require(len(cells) == len(set(cells)) == parameters.columns * parameters.rows)


class Plane:
    """One of the three planes of a slice, line by line. Each line has two places before it and one behind it."""

    def __init__(self, decoder, width, bits, tables, states):
        self.decoder = decoder
        self.width = width
        self.bits = bits
        self.tables = tables
        self.states = states
        self.above = [0] * (width + 3)
        self.two_above = [0] * (width + 3)

    def read_line(self):
        """The next line, with the predictions and contexts of RFC 9043, sections 3.1 to 3.6."""
        above, two_above = self.above, self.two_above
        table0, table1, table2, table3, table4 = self.tables
        mask = (2 << self.bits) - 1
        line = [0, above[2]] + [0] * (self.width + 1)
        for x in range(2, self.width + 2):
            left, top, top_left = line[x - 1], above[x], above[x - 1]
            context = (
                table0[left - top_left & 255]
                + table1[top_left - top & 255]
                + table2[top - above[x + 1] & 255]
                + table3[line[x - 2] - left & 255]
                + table4[two_above[x] - top & 255]
            )
            prediction = sorted((left, top, left + top - top_left))[1]
            if context < 0:
                difference = -self.decoder.number(self.states[-context], True)
            else:
                difference = self.decoder.number(self.states[context], True)
            line[x] = prediction + difference & mask
        line[-1] = line[-2]
        self.above, self.two_above = line, above
        return line[2:-1]


def slice_box(parameters, header, width, height):
    """The pixels of a slice: from which column and row, to which ones."""
    left = header.column * width // parameters.columns
    right = (header.column + header.columns) * width // parameters.columns
    top = header.row * height // parameters.rows
    bottom = (header.row + header.rows) * height // parameters.rows
    return left, top, right, bottom


def read_slice(parameters, data, is_first, width, height):
    """The lines of a slice of a frame of this size: red, green and blue of each pixel, as two bytes each."""
    decoder, header = begin_slice(parameters, data, is_first)
    left, top, right, bottom = slice_box(parameters, header, width, height)
    (luma_tables, luma_contexts), (chroma_tables, chroma_contexts) = (parameters.sets[index] for index in header.sets)
    luma_states = [fresh_states() for _ in range(luma_contexts)]
    chroma_states = [fresh_states() for _ in range(chroma_contexts)]
    planes = [
        Plane(decoder, right - left, parameters.bits, luma_tables, luma_states),
        Plane(decoder, right - left, parameters.bits, chroma_tables, chroma_states),
        Plane(decoder, right - left, parameters.bits, chroma_tables, chroma_states),
    ]
    return [read_colours(parameters.bits, [plane.read_line() for plane in planes]) for _ in range(top, bottom)]


def read_colours(bits, lines):
    """The colours of a line (RFC 9043, section 3.7.2). With 10 and 12 bits green and blue change their parts."""
    offset = 1 << bits
    line = array("H")
    for luma, blue_part, red_part in zip(*lines):
        blue_part -= offset
        red_part -= offset
        base = luma - (blue_part + red_part >> 2)
        red, other = red_part + base, blue_part + base
        green, blue = (other, base) if bits in (10, 12) else (base, other)
        require(0 <= red < offset and 0 <= green < offset and 0 <= blue < offset)
        line.extend((red, green, blue))
    return line


def put_slice(picture, box, lines, width):
    """Puts the lines of a slice into the picture."""
    left, top, right, _ = box
    for y, line in enumerate(lines, top):
        start = 3 * (y * width + left)
        picture[start : start + 3 * (right - left)] = line


def read_picture(parameters, width, height, data):
    """The samples of a frame, line by line."""
    try:
        slices = cut_frame(parameters, data)
        headers = [begin_slice(parameters, one, number == 0)[1] for number, one in enumerate(slices)]
        check_grid(parameters, headers)
    except Broken:
        raise FileFault("Frame") from None
    picture = array("H", bytes(6 * width * height))
    for number, (one, header) in enumerate(zip(slices, headers)):
        try:
            lines = read_slice(parameters, one, number == 0, width, height)
        except Broken:
            raise FileFault("Slice") from None
        put_slice(picture, slice_box(parameters, header, width, height), lines, width)
    return picture


# ---- DPX (SMPTE ST 268) ----


class Layout(NamedTuple):
    """How the image of a DPX file lies."""

    order: str  # as struct says it: > or <
    bits: int
    width: int
    height: int
    offset: int
    line: int  # bytes of the samples of a line
    stride: int  # bytes from one line to the next


UNDEFINED = 0xFFFFFFFF


def layout_of(head, length):
    """The layout of a file that begins with the head and has this length."""
    require(len(head) >= 1664 and length >= 1664)
    order = {b"SDPX": ">", b"XPDS": "<"}.get(head[:4])
    require(order is not None)
    (offset,) = struct.unpack_from(order + "I", head, 4)
    elements, width, height = struct.unpack_from(order + "HII", head, 770)
    descriptor, bits, packing, encoding = struct.unpack_from(order + "BxxBHH", head, 800)
    (line_padding,) = struct.unpack_from(order + "I", head, 812)
    require(1664 <= offset <= length and elements == 1)
    require(is_size(width, height) and descriptor == 50 and bits in (8, 10, 12, 16))
    require(packing == 1 or packing == 0 and bits in (8, 16))
    require(encoding in (0, 0xFFFF) and line_padding in (0, UNDEFINED))
    line = {8: 3, 10: 4, 12: 6, 16: 6}[bits] * width
    stride = (line + 3) // 4 * 4
    if offset + stride * height > length:
        stride = line
    require(offset + stride * height <= length)
    return Layout(order, bits, width, height, offset, line, stride)


def is_size(width, height):
    return 1 <= width <= 16384 and 1 <= height <= 16384 and width * height <= 67108864


def pads_of(layout, form):
    """The pads of all lines, one byte each, which are as many as the layout asks and fit it."""
    units = {8: 0, 10: layout.width, 12: 3 * layout.width, 16: 0}[layout.bits]
    per_line = units + layout.stride - layout.line
    pads = filled(form, per_line * layout.height)
    most = {10: 3, 12: 15}.get(layout.bits, 255)
    for start in range(0, len(pads), per_line or 1):
        require(max(pads[start : start + units], default=0) <= most)
    return pads, per_line


def filled(form, count):
    """So many pads by their form."""
    if form[0] == 0:
        return bytes(count)
    if form[0] == 2:
        require(len(form) - 5 == count)
        return form[5:]
    runs = list(struct.iter_unpack(">IB", form[5:]))
    require(sum(length for length, _ in runs) == count)
    return b"".join(bytes([value]) * length for length, value in runs)


def image_lines(layout, samples, pads, per_line):
    """The lines of an image, of its samples and pads."""
    for y in range(layout.height):
        line = samples[3 * layout.width * y : 3 * layout.width * (y + 1)].tolist()
        line_pads = pads[per_line * y : per_line * (y + 1)]
        past_line = layout.stride - layout.line
        yield packed(layout, line, line_pads) + line_pads[per_line - past_line :]


def packed(layout, line, pads):
    """The bytes of the samples of a line, with the pads of its units."""
    if layout.bits == 8:
        return bytes(line)
    if layout.bits == 10:
        pixels = zip(line[0::3], line[1::3], line[2::3], pads)
        words = [red << 22 | green << 12 | blue << 2 | pad for red, green, blue, pad in pixels]
        return struct.pack(f"{layout.order}{len(words)}I", *words)
    if layout.bits == 12:
        line = [sample << 4 | pad for sample, pad in zip(line, pads)]
    return struct.pack(f"{layout.order}{len(line)}H", *line)


# ---- FLAC (RFC 9639) ----


class StreamInfo(NamedTuple):
    most_samples: int
    channels: int
    bits: int


def read_stream_info(private):
    """The stream's parameters, of the private data of its track."""
    require(len(private) >= 42 and private[:4] == b"fLaC")
    require(private[4] in (0x00, 0x80) and private[5:8] == b"\x00\x00\x22")
    most_samples = int.from_bytes(private[10:12], "big")
    packed_fields = int.from_bytes(private[18:26], "big")
    rate = packed_fields >> 44
    channels = (packed_fields >> 41 & 7) + 1
    bits = (packed_fields >> 36 & 31) + 1
    require(rate > 0 and bits in (8, 16, 24) and most_samples >= 16)
    return StreamInfo(most_samples, channels, bits)


class Bits:
    """Reads numbers of a list of bits, which is a text of zeros and ones."""

    def __init__(self, data):
        self.bits = "".join(f"{byte:08b}" for byte in data)
        self.place = 0

    def take(self, count):
        """An unsigned number."""
        end = self.place + count
        require(end <= len(self.bits))
        number = int(self.bits[self.place : end] or "0", 2)
        self.place = end
        return number

    def take_signed(self, count):
        number = self.take(count)
        return number - (1 << count) if count and number >> count - 1 else number

    def zeros(self):
        """How many zeros stand before the next one, which is read too."""
        end = self.bits.find("1", self.place)
        require(end >= 0)
        count = end - self.place
        self.place = end + 1
        return count


BLOCK_SIZES = {1: 192, 2: 576, 3: 1152, 4: 2304, 5: 4608, **{code: 1 << code for code in range(8, 16)}}
DEPTHS = {1: 8, 2: 12, 4: 16, 5: 20, 6: 24, 7: 32}
RATE_BITS = {12: 8, 13: 16, 14: 16}
LEFT_SIDE, SIDE_RIGHT, MID_SIDE = 8, 9, 10


def read_block(info, data):
    """The samples of a frame of sound, a list for each channel."""
    bits = Bits(data)
    size, channel_code = read_frame_header(info, data, bits)
    is_side = {LEFT_SIDE: (0, 1), SIDE_RIGHT: (1, 0), MID_SIDE: (0, 1)}.get(channel_code, (0,) * info.channels)
    channels = [read_subframe(bits, size, info.bits + more) for more in is_side]
    channels = independent(channels, channel_code)
    for channel in channels:
        check_range(channel, info.bits)
    bits.take(-bits.place % 8)
    end = bits.place // 8
    checksum = bits.take(16)
    require(checksum == crc_16(data[:end]) and end + 2 == len(data))
    return channels


def read_frame_header(info, data, bits):
    """How many samples a channel has, and the code of the channels."""
    require(bits.take(15) == 0b111111111111100)
    bits.take(1)
    size_code, rate_code, channel_code, depth_code, reserved = (bits.take(count) for count in (4, 4, 4, 3, 1))
    require(size_code != 0 and rate_code != 15 and channel_code <= MID_SIDE and depth_code != 3 and reserved == 0)
    skip_coded_number(bits)
    size = BLOCK_SIZES[size_code] if size_code not in (6, 7) else 1 + bits.take(8 if size_code == 6 else 16)
    bits.take(RATE_BITS.get(rate_code, 0))
    end = bits.place // 8
    require(bits.take(8) == crc_8(data[:end]))
    require(info.channels == (channel_code + 1 if channel_code < LEFT_SIDE else 2))
    require(info.bits == DEPTHS.get(depth_code, info.bits) and size <= info.most_samples)
    return size, channel_code


def skip_coded_number(bits):
    first = bits.take(8)
    more = max(0, 7 - (first ^ 0xFF).bit_length())
    require(first < 128 or 192 <= first < 255)
    for _ in range(more):
        require(bits.take(8) >> 6 == 2)


def read_subframe(bits, size, depth):
    require(bits.take(1) == 0)
    kind = bits.take(6)
    wasted = bits.zeros() + 1 if bits.take(1) else 0
    depth -= wasted
    require(depth > 0)
    if kind == 0:
        samples = [bits.take_signed(depth)] * size
    elif kind == 1:
        samples = [bits.take_signed(depth) for _ in range(size)]
    elif 8 <= kind <= 12:
        samples = read_fixed(bits, size, depth, kind - 8)
    else:
        require(kind >= 32)
        samples = read_linear(bits, size, depth, kind - 31)
    check_range(samples, depth)
    return [sample << wasted for sample in samples]


FIXED = [[], [1], [2, -1], [3, -3, 1], [4, -6, 4, -1]]


def read_fixed(bits, size, depth, order):
    require(order < size)
    samples = [bits.take_signed(depth) for _ in range(order)]
    return predicted(samples, read_residuals(bits, size, order), FIXED[order], 0)


def read_linear(bits, size, depth, order):
    require(order < size)
    samples = [bits.take_signed(depth) for _ in range(order)]
    precision = bits.take(4) + 1
    shift = bits.take_signed(5)
    require(precision < 16 and shift >= 0)
    coefficients = [bits.take_signed(precision) for _ in range(order)]
    return predicted(samples, read_residuals(bits, size, order), coefficients, shift)


def predicted(samples, residuals, coefficients, shift):
    """The samples that follow the first ones. The first coefficient is that of the newest sample."""
    for residual in residuals:
        total = sum(one * samples[-number] for number, one in enumerate(coefficients, 1))
        samples.append((total >> shift) + residual)
    return samples


def read_residuals(bits, size, order):
    method = bits.take(2)
    require(method <= 1)
    width = 4 + method
    partitions = 1 << bits.take(4)
    require(size % partitions == 0 and size // partitions > order)
    residuals = []
    for number in range(partitions):
        count = size // partitions - (order if number == 0 else 0)
        parameter = bits.take(width)
        if parameter == (1 << width) - 1:
            escaped = bits.take(5)
            residuals += [bits.take_signed(escaped) for _ in range(count)]
        else:
            residuals += [read_folded(bits, parameter) for _ in range(count)]
    return residuals


def read_folded(bits, parameter):
    folded = bits.zeros() << parameter | bits.take(parameter)
    residual = folded >> 1 ^ -(folded & 1)
    require(abs(residual) < 1 << 31)
    return residual


def independent(channels, code):
    """Left and right."""
    if code == LEFT_SIDE:
        left, side = channels
        return [left, [one - other for one, other in zip(left, side)]]
    if code == SIDE_RIGHT:
        side, right = channels
        return [[one + other for one, other in zip(side, right)], right]
    if code == MID_SIDE:
        pairs = [(2 * mid + (side & 1), side) for mid, side in zip(*channels)]
        return [[mid + side >> 1 for mid, side in pairs], [mid - side >> 1 for mid, side in pairs]]
    return channels


def check_range(samples, bits):
    require(-(1 << bits - 1) <= min(samples) and max(samples) < 1 << bits - 1)


def wave_bytes(info, channels):
    """The samples as a wave has them: a sample of each channel in turn, the lowest byte first, 8 bits without a sign."""
    if info.bits == 8:
        return bytes(sample + 128 for samples in zip(*channels) for sample in samples)
    count = info.bits // 8
    return b"".join(sample.to_bytes(count, "little", signed=True) for samples in zip(*channels) for sample in samples)


# ---- the files of a package ----


class Restorer:
    """Works out the contents of the files that a package means."""

    def __init__(self, package):
        self.package = package
        self.outline = Outline(package)
        side = next((one for one in self.outline.attachments if one.media_type == SIDE_DATA), None)
        if side is None:
            raise package_refused("no side data")
        self.records = SideData(package, side.start, side.end).records()
        check_names(self.records)
        self.attached = {}
        for one in self.outline.attachments:
            if one is not side:
                self.attached.setdefault(one.name, one)
        self.parameters = {number: self.parameters_of(track) for number, track in self.outline.tracks.items()}

    def parameters_of(self, track):
        try:
            if track.kind == "sound":
                return read_stream_info(track.private)
            parameters = read_parameters(track.private)
            require(is_size(track.width, track.height))
            require(parameters.columns <= track.width and parameters.rows <= track.height)
            return parameters
        except Broken:
            raise package_refused(f"bad track {track.number}") from None

    def content_of(self, record):
        """The content of a file, in pieces."""
        kinds = {OTHER: self.other_of, FRAME: self.frame_of, WAVE: self.wave_of}
        return kinds[record.kind](record)

    def other_of(self, record):
        found = self.attached.get(record.name)
        if found is None:
            raise FileFault("Missing")
        yield from self.package.pieces(found.start, found.end)

    def blocks_of(self, record, kind):
        track = self.outline.tracks.get(record.track)
        if track is None or track.kind != kind:
            raise FileFault("Missing")
        return self.outline.blocks[track.number]

    def bytes_of(self, block):
        if block.cluster.is_damaged():
            raise FileFault("Crc")
        return self.package.read(block.start, block.end)

    def frame_of(self, record):
        blocks = self.blocks_of(record, "frames")
        if record.index >= len(blocks):
            raise FileFault("Missing")
        data = self.bytes_of(blocks[record.index])
        layout = self.layout_of(record)
        try:
            pads, per_line = pads_of(layout, self.package.read(*record.pads))
        except Broken:
            raise FileFault("Pads") from None
        samples = read_picture(self.parameters[record.track], layout.width, layout.height, data)
        yield from self.package.pieces(*record.head)
        yield from image_lines(layout, samples, pads, per_line)
        yield from self.package.pieces(*record.tail)

    def layout_of(self, record):
        """The layout that the record's head tells, which must be that of its track."""
        track = self.outline.tracks[record.track]
        start, end = record.head
        try:
            layout = layout_of(self.package.read(start, min(end, start + 1664)), record.length)
            require(layout.offset == end - start and layout.bits == self.parameters[record.track].bits)
            require((layout.width, layout.height) == (track.width, track.height))
            return layout
        except Broken:
            raise FileFault("Layout") from None

    def wave_of(self, record):
        blocks = self.blocks_of(record, "sound")
        info = self.parameters[record.track]
        yield from self.package.pieces(*record.head)
        for block in blocks:
            data = self.bytes_of(block)
            try:
                yield wave_bytes(info, read_block(info, data))
            except Broken:
                raise FileFault("Audio") from None
        yield from self.package.pieces(*record.tail)

    def checked(self, record):
        """The content of a file, checked, in pieces that are given once."""
        length, found, kept = 0, hashlib.md5(), []
        for piece in self.content_of(record):
            length += len(piece)
            found.update(piece)
            kept.append(piece)
            if length > MOST_KEPT:
                kept.clear()
        if length != record.length:
            raise FileFault("Length")
        if found.digest() != record.sum:
            raise FileFault("Sum")
        return iter(kept) if length <= MOST_KEPT else self.content_of(record)


# ---- the target ----


def first_in_the_way(target):
    """The first name in the target, in byte order, that isn't a folder; None where there is none."""
    names = []
    for folder, folders, files in os.walk(target, onerror=give_up):
        paths = [os.path.join(folder, name) for name in folders + files]
        names += [path[len(target) :].lstrip(b"/") for path in paths if not is_folder(path)]
    return min(names, default=None)


def give_up(error):
    raise error


def is_folder(path):
    return stat.S_ISDIR(os.lstat(path).st_mode)


def in_the_way(name):
    return Refused(4, name.decode("utf-8", "replace") + ": in the way")


def place_of(target, name):
    """Where a file is to stand. Its folders are made; what stands there and is no folder is in the way."""
    if os.sep != "/" and (os.sep.encode() in name or b":" in name):
        raise OSError(f"this system has no file {name.decode('utf-8')}")
    for folder in folders_of(name):
        path = os.path.join(target, folder)
        if not os.path.lexists(path):
            os.mkdir(path)
        elif not is_folder(path):
            raise in_the_way(name)
    return os.path.join(target, name)


def write_file(target, record, pieces):
    """Creates a file. It is taken away again where it doesn't get whole."""
    path = place_of(target, record.name)
    try:
        file = open(path, "xb")
    except FileExistsError:
        raise in_the_way(record.name) from None
    written = hashlib.md5()
    try:
        with file:
            for piece in pieces:
                file.write(piece)
                written.update(piece)
        if written.digest() != record.sum:
            raise FileFault("Sum")
    except BaseException:
        os.unlink(path)
        raise


def restore(package_name, target):
    """Restores a package and gives the report."""
    os.makedirs(target, exist_ok=True)
    found = first_in_the_way(target)
    if found is not None:
        raise in_the_way(found)
    try:
        file = open(package_name, "rb")
    except FileNotFoundError:
        raise Refused(9, f"{os.fsdecode(package_name)}: not there") from None
    with file:
        restorer = Restorer(Package(file))
        for record in restorer.records:
            try:
                write_file(target, record, restorer.checked(record))
            except FileFault as why:
                raise package_refused(f"file {record.name.decode('utf-8')}: {why}") from None
        length = sum(record.length for record in restorer.records)
        return f"restored {len(restorer.records)} files, {length} bytes"


def main(words):
    try:
        if len(words) != 2 or not all(words):
            raise Refused(1, "usage: uncook.py PKG DIR")
        package_name, target = (os.fsencode(word) for word in words)
        status, line = 0, restore(package_name, target)
    except Refused as why:
        status, line = why.status, "uncook: " + why.reason
    except MemoryError:
        status, line = 6, "uncook: no memory"
    except OSError as why:
        print(f"uncook: {why}", file=sys.stderr)
        status, line = 5, "uncook: shelf fault"
    return tell(line, status)


def tell(line, status):
    """Writes the line and gives the status, which is 7 where all was done and the line can't be written."""
    data = line.encode("utf-8", "surrogateescape") + b"\n"
    try:
        while data:
            data = data[os.write(1, data) :]
    except OSError:
        return status or 7
    return status


if __name__ == "__main__":
    sys.exit(main(sys.argv[1:]))

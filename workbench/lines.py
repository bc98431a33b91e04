"""The text of a log in blocks of whole lines, each as soon as it is there: of a file, a pipe, gzip, or a file that grows and is replaced."""
import os
import time
import zlib
from typing import Iterator, List, NamedTuple, Optional

SIZE = 1 << 18  # bytes of one read
MOST_LINE = 1 << 24  # bytes of a line
WAIT = 0.1  # seconds between two looks at a file that grows
OTHERS = (  # what a log of another format begins with, or its name ends in, and how it is turned into one that is read
    (b"MDF     ", ".mf4", "an MF4 file: python3 -c \"from asammdf import MDF; MDF('LOG').export('csv')\" makes a CSV file of it"),
    (b"\x00\x00\x00\x00\x00\x00\x00\x01\x49", ".fst", "an FST dump: fst2vcd LOG -o LOG.vcd makes a VCD file of it"),
    (b"\xff\xfe", "", "text in UTF-16: iconv -f UTF-16 -t UTF-8 LOG makes UTF-8 of it"),
    (b"\xfe\xff", "", "text in UTF-16: iconv -f UTF-16 -t UTF-8 LOG makes UTF-8 of it"),
    (b"PK\x03\x04", ".xlsx", "a ZIP archive or a workbook: unzip it, or save it as CSV"),
)


class LogFault(Exception):
    """What is wrong with a log, in one line."""


class Unnamed(LogFault):
    """A log has no column or signal of this name."""

    def __init__(self, message: str, wanted: str) -> None:
        super().__init__(message)
        self.wanted = wanted


class Chunk(NamedTuple):
    """Some lines of a log."""

    text: str  # without the end of the last line
    first: int  # the number of the first line
    ends: bool  # whether the last line has its end
    new: bool  # whether a file that took the place of the last one begins here


def name_of(path: str) -> str:
    return "standard input" if path == "-" else path


def reads(path: str, number: int) -> Iterator[bytes]:
    """The bytes of an open file up to its end."""
    while True:
        try:
            data = os.read(number, SIZE)
        except OSError as error:
            raise OSError(error.errno, error.strerror, name_of(path)) from None
        if not data:
            return
        yield data


def is_replaced(path: str, number: int) -> bool:
    """Whether another file has this path now, or the open one was cut."""
    try:
        there, here, read = os.stat(path), os.fstat(number), os.lseek(number, 0, os.SEEK_CUR)
    except OSError:
        return False
    return (there.st_dev, there.st_ino) != (here.st_dev, here.st_ino) or here.st_size < read


def followed(path: str) -> Iterator[Optional[bytes]]:
    """The bytes of a file that grows, without end; None where another file takes its place."""
    number = os.open(path, os.O_RDONLY)
    while True:
        yield from reads(path, number)
        if is_replaced(path, number):
            yield from reads(path, number)  # what came between the two looks
            os.close(number)
            number = os.open(path, os.O_RDONLY)
            yield None
        else:
            time.sleep(WAIT)


def opened(path: str, follow: bool) -> Iterator[Optional[bytes]]:
    if follow:
        yield from followed(path)
    elif path == "-":
        yield from reads(path, 0)
    else:
        number = os.open(path, os.O_RDONLY)
        try:
            yield from reads(path, number)
        finally:
            os.close(number)


def unpacked(path: str, parts: Iterator[Optional[bytes]]) -> Iterator[Optional[bytes]]:
    """The bytes themselves where the first ones are those of gzip."""
    packed = None
    for number, part in enumerate(parts):
        if number == 0 and part is not None:
            refuse_others(path, part)
            packed = zlib.decompressobj(31) if part.startswith(b"\x1f\x8b") else None
        if packed is None or part is None:
            yield part
            continue
        while part:
            if packed.eof:
                packed = zlib.decompressobj(31)  # one more member
            try:
                yield packed.decompress(part, SIZE)
            except zlib.error as error:
                raise LogFault(f"{name_of(path)}: the gzip file is damaged: {error}") from None
            part = packed.unused_data if packed.eof else packed.unconsumed_tail
    if packed is not None and not packed.eof:
        raise LogFault(f"{name_of(path)}: the gzip file is cut off")


def refuse_others(path: str, begin: bytes) -> None:
    for mark, ending, instead in OTHERS:
        if begin.startswith(mark) or ending and path.lower().endswith(ending):
            raise LogFault(f"{name_of(path)} is {instead.replace('LOG', path)}")


def chunks(path: str, follow: bool = False) -> Iterator[Chunk]:
    """The lines of a log. Ends of lines are those of Unix, DOS or old Macintosh computers. A byte order mark is left out."""
    left: List[bytes] = []  # of a line that goes on
    line, size, new = 1, 0, False
    for part in unpacked(path, opened(path, follow)):
        if part is None:
            yield from chunk_of(path, b"".join(left), line, False, new)
            left, line, size, new = [], 1, 0, True
            continue
        first, end = part.find(b"\n"), part.rfind(b"\n")
        size += len(part) if first < 0 else first
        if size > MOST_LINE:
            raise LogFault(f"{name_of(path)}:{line}: the line has more than {MOST_LINE} bytes")
        if end < 0:
            left.append(part)
            continue
        whole = b"".join([*left, part[:end]])
        yield from chunk_of(path, whole, line, True, new)
        left, line, size, new = [part[end + 1:]], line + whole.count(b"\n") + 1, len(part) - end - 1, False
    yield from chunk_of(path, b"".join(left), line, False, new)


def chunk_of(path: str, data: bytes, first: int, ends: bool, new: bool) -> Iterator[Chunk]:
    """The lines, up to one that has a NUL; of nothing that has no end there are none."""
    if not data and not ends:
        return
    nul = data.find(b"\0")
    if nul >= 0:
        line, begin = first + data.count(b"\n", 0, nul), data.rfind(b"\n", 0, nul)
        if begin > 0:
            yield from chunk_of(path, data[:begin], first, True, new)
        raise LogFault(f"{name_of(path)}:{line}:{nul - begin}: a NUL is no text")
    if first == 1 and data.startswith(b"\xef\xbb\xbf"):
        data = data[3:]
    text = data.decode("utf-8", "replace")
    if "\r" in text:
        text = (text[:-1] if text.endswith("\r") and ends else text).replace("\r\n", "\n").replace("\r", "\n")
    yield Chunk(text, first, ends, new)

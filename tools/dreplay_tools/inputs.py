"""Inputs of the tools: plain or compressed, from a file or from standard input, as a file that can
be read twice.
"""
import bz2
import gzip
import lzma
import shutil
import subprocess
import tempfile
import zlib

from .ends import Failure, standard_input

GZIP, BZIP2, XZ, ZSTD = b"\x1f\x8b", b"BZh", b"\xfd7zXZ\x00", b"\x28\xb5\x2f\xfd"


def fail_damaged(shown):
    return Failure(f"{shown}: its compression is damaged")


def decompress(file, shown):
    """A reader of what a compressed file holds, or none if it isn't compressed."""
    begins = file.peek(6)[:6]
    if begins.startswith(GZIP):
        return gzip.GzipFile(fileobj=file)
    if begins.startswith(BZIP2):
        return bz2.BZ2File(file)
    if begins.startswith(XZ):
        return lzma.LZMAFile(file)
    if begins.startswith(ZSTD):
        return zstd(file, shown)
    return None


def zstd(file, shown):
    """A reader of a file of zstd, by Python's package for it or else by the command."""
    try:
        import zstandard
    except ImportError:
        zstandard = None
    if zstandard:
        return zstandard.ZstdDecompressor().stream_reader(file)
    if not shutil.which("zstd"):
        raise Failure(
            f"{shown}: it is compressed by zstd, and neither the command zstd nor "
            "python3-zstandard is installed"
        )
    spool = tempfile.TemporaryFile()
    child = subprocess.Popen(
        ["zstd", "-dcq"], stdin=subprocess.PIPE, stdout=spool, stderr=subprocess.DEVNULL
    )
    try:
        shutil.copyfileobj(file, child.stdin)
        child.stdin.close()
    except BrokenPipeError:
        pass
    if child.wait():
        raise fail_damaged(shown)
    spool.seek(0)
    return spool


def open_input(path):
    """A binary file of what PATH holds, uncompressed and seekable, from its start. '-' is standard
    input.
    """
    shown = "standard input" if path == "-" else path
    file = standard_input() if path == "-" else open(path, "rb")
    try:
        inner = decompress(file, shown)
        if inner is None and file.seekable():
            return file
        # What can be read only once is copied to a file that nobody else sees.
        spool = tempfile.TemporaryFile()
        shutil.copyfileobj(inner or file, spool, 1 << 20)
    except EOFError:
        raise Failure(
            f"{shown}: its end is missing; gzip -dc, bzip2 -dc or xz -dc writes what is there"
        )
    except (lzma.LZMAError, zlib.error):
        raise fail_damaged(shown)
    except IsADirectoryError:
        raise Failure(f"{shown}: Is a directory")
    except OSError as why:
        if why.errno is None:  # it isn't of the system, but of gzip or bz2
            raise fail_damaged(shown)
        raise
    spool.seek(0)
    return spool

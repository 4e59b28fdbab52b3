"""Files read and written whole; what cannot be read or represented is refused with its file and line."""
import codecs
import os


class Refusal(Exception):
    """What cannot be read or represented, with its file and line."""


def at_line(path, line, message):
    return Refusal(f"{path} line {line}: {message}")


def read_bytes(path):
    try:
        with open(path, "rb") as file:
            return file.read()
    except OSError as error:
        raise Refusal(f"{path}: {error.strerror}") from None


def write_bytes(path, data):
    try:
        with open(path, "wb") as file:
            file.write(data)
    except OSError as error:
        raise Refusal(f"{path}: {error.strerror}") from None


def read_text(path):
    """The file's text; a mark at the front that spreadsheet programs write is dropped."""
    data = read_bytes(path)
    if data.startswith(codecs.BOM_UTF8):
        data = data[len(codecs.BOM_UTF8):]
    try:
        return data.decode("utf-8")
    except UnicodeDecodeError as error:
        raise at_line(path, data[:error.start].count(b"\n") + 1, "not UTF-8 text") from None


def beside(path, ending):
    """The file of the same name with another ending."""
    return os.path.splitext(path)[0] + ending

"""What comes from outside and is shown: names of files, words of the command line."""
import os


def visible(name):
    """A name that does no harm where it is shown: what is no printable character is escaped, bytes that are no UTF-8 too."""
    shown = ""
    for character in os.fsdecode(name):
        if "\udc80" <= character <= "\udcff":
            shown += f"\\x{ord(character) - 0xdc00:02x}"
        elif character.isprintable() and character != "\\":
            shown += character
        else:
            shown += character.encode("unicode_escape", "surrogatepass").decode("ascii")
    return shown


def base_name(path):
    return visible(os.path.basename(os.fsdecode(path)) or os.fsdecode(path))

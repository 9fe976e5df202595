# Makes a recording of files, a record for each: python3 examples/record.py FILE... >day.rec
import sys


def grouped(length):  # in groups of seven bits, the lowest first; 128 is added to all but the last
    return bytes([length]) if length < 128 else bytes([128 + length % 128]) + grouped(length // 128)


try:
    for name in sys.argv[1:]:
        if len(text := open(name, "rb").read()) > 2097151:
            raise OSError("more than 2097151 bytes: " + name)
        sys.stdout.buffer.write(grouped(len(text)) + text)
except OSError as error:
    sys.exit("record.py: %s" % error)

"""The two file forms, for tools/pack and tools/words, by document 01, "Checks in order", and document 02, Wish 13. What
is proved of them stands in crates/files; a file that is made here is tested again by whoever reads it."""
import struct

RULES, IMAGES = b'LRS', b'LRI'
MOST_WORDS = {RULES: 4096, IMAGES: 28672}
VERSIONS = 1, 2
HEADER = struct.Struct('<3sHH')  # mark, version and count, low byte first


class Refused(Exception):
    """There is no such file; the text says why, by document 01's number where it has one."""


def test_version(version):
    if version not in VERSIONS:
        raise Refused('refusal 11: version is neither {} nor {}'.format(*VERSIONS))


def test_count(mark, count):
    if count == 0:
        raise Refused('refusal 1: no words')
    if count > MOST_WORDS[mark]:
        raise Refused(f'refusal 2: more than {MOST_WORDS[mark]:,} words')


def pack(mark, version, words):
    test_version(version)
    test_count(mark, len(words))
    return HEADER.pack(mark, version, len(words)) + struct.pack(f'<{len(words)}H', *words)


def unpack(file):
    """The version that the file carries, and its words."""
    if len(file) < HEADER.size or file[:3] not in MOST_WORDS:
        raise Refused('refusal 10: the file has under 7 bytes, or its mark is neither LRS nor LRI')
    mark, version, count = HEADER.unpack_from(file)
    test_version(version)
    if len(file) != HEADER.size + 2 * count:
        raise Refused('refusal 12: file length is not 7 plus twice its count')
    test_count(mark, count)
    return version, struct.unpack_from(f'<{count}H', file, HEADER.size)

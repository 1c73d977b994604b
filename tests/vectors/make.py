#!/usr/bin/env python3
"""Makes crates/vectors/stdin, crates/vectors/stdout and tests/vectors/notarized.txt.

The cipher's vectors are the published ones of NBS Special Publication 500-20 (also in SP 800-17): variable plaintext,
variable key, permutation operation, substitution table. Each published answer is confirmed with an independent library
(Python's cryptography over OpenSSL; Debian: python3-cryptography) before it is written; a difference stops the script.

Data keys sealed under a single key or a pair offset by a count, and MACs, are made with that library; the example of
FIPS 113 is a published one. Whole messages are written here from their fields, with MACs of that library. Data keys
under notarizing keys (X9.17, section 7.5) go to tests/vectors/notarized.txt besides.

A line of stdin is an operation and four numbers of 16 hexadecimal digits: left key, right key, count, block; after an M
stands the text, on a line of its own, after a W a message without its MAC, which is to be read and written anew, after an
N, O, P or Q the originator and the receiver, each filled with blanks to 16 characters, with a blank between them. A line
of stdout is a line or a text of stdin and its answer; the two identities stand between such a line and its answer. With
--write the files are written, with --check they are compared.
"""
import pathlib
import sys

from cryptography.hazmat.primitives.ciphers import Cipher, modes

try:
    from cryptography.hazmat.decrepit.ciphers.algorithms import TripleDES
except ImportError:
    from cryptography.hazmat.primitives.ciphers.algorithms import TripleDES

ROOT = pathlib.Path(__file__).resolve().parents[2]


def seal(left, right, block):
    """ede under a pair; with right equal to left, e under a single key."""
    keys = b"".join(key.to_bytes(8, "big") for key in (left, right, left))
    cipher = Cipher(TripleDES(keys), modes.ECB()).encryptor()
    return int.from_bytes(cipher.update(block.to_bytes(8, "big")), "big")


def mac(key, text):
    cipher = Cipher(TripleDES(key.to_bytes(8, "big") * 3), modes.CBC(bytes(8))).encryptor()
    return int.from_bytes(cipher.update(text + bytes(-len(text) % 8))[-8:-4], "big")


def published(name, width):
    rows = []
    for line in (pathlib.Path(__file__).parent / name).read_text().splitlines():
        if line and not line.startswith("#"):
            numbers = [int(word, 16) for word in line.split()]
            assert len(numbers) == width, (name, line)
            rows.append(numbers)
    return rows


def odd(key):
    """The key with each byte's last bit set so that the byte has an odd number of ones."""
    return int.from_bytes(bytes(b & 0xFE | (bin(b >> 1).count("1") + 1) % 2 for b in key.to_bytes(8, "big")), "big")


def cipher_vectors():
    weak = 0x0101010101010101
    for place, (answer,) in enumerate(published("variable-plaintext.txt", 1)):
        yield weak, 1 << (63 - place), answer
    places = [place for place in range(64) if place % 8 != 7]
    for place, (answer,) in zip(places, published("variable-key.txt", 1), strict=True):
        yield odd(1 << (63 - place)), 0, answer
    for key, answer in published("permutation-operation.txt", 2):
        yield key, 0, answer
    yield from published("substitution-table.txt", 3)


def sealed_keys():
    """Top keys, counts and data keys: counts 1 and 2, 258, both ends; data keys of any parity."""
    tops = [(0x0123456789ABCDEF, 0xFEDCBA9876543210), (0x133457799BBCDFF1, 0x0E329232EA6D0D73)]
    for left, right in tops:
        for count in (1, 2, 3, 258, 259, 65536, 99_999_998, 99_999_999):
            for data in (0x8F6E5D4C3B2A1907, 0, 0xFFFFFFFFFFFFFFFF):
                yield left, right, count, data


def notarizing(left, right, org, rcv, count):
    """The notarizing key or pair of section 7.5, each sum byte by byte; right is None for a single key."""
    def halves(identity):
        repeated = (identity * 16)[:16].encode()
        return repeated[:8], repeated[8:]

    def plus_characters(key, characters):
        return bytes(k ^ c << 1 for k, c in zip(key.to_bytes(8, "big"), characters))

    def enciphered(key, characters):
        return seal(*[int.from_bytes(key, "big")] * 2, int.from_bytes(characters, "big"))

    (fm1, fm2), (to1, to2) = halves(org), halves(rcv)
    nsl = enciphered(plus_characters(left if right is None else right, fm1), to2)
    nsr = enciphered(plus_characters(left, to1), fm2)
    if right is None:
        single = left ^ (nsl >> 32 << 32 | nsr & 0xFFFFFFFF) ^ count
        return single, single
    return left ^ nsl ^ count, right ^ nsr ^ count


def notarized_keys():
    """Both forms, the standard's own identities and such of 1 to 16 characters, counts at both ends and between."""
    pairs = (("CITYB", "MANHAN"), ("MANHAN", "CITYB"), ("A", "9"), ("MILLS", "HARBOR01"),
             ("HARBOR01", "HARBOR012"), ("HARBOR012", "ABCDEFGHIJKLMNO"), ("ABCDEFGHIJKLMNO", "PONMLKJIHGFEDCBA"),
             ("PONMLKJIHGFEDCBA", "Z"))
    for left, right in ((0x0123456789ABCDEF, None), (0x0123456789ABCDEF, 0xFEDCBA9876543210)):
        for org, rcv in pairs:
            for count in (1, 2, 512, 2048, 99_999_998):
                data = 0x8F6E5D4C3B2A1907
                yield left, right, org, rcv, count, data, seal(*notarizing(left, right, org, rcv, count), data)


def texts():
    """FIPS 113's example, then texts of each length around the ends of blocks."""
    yield 0x0123456789ABCDEF, b"7654321 Now is the time for ", 0xF1D30F68
    yield 0x0123456789ABCDEF, b"MCL/RSM RCV/HARBOR ORG/MILL ", None
    line = b"MCL/KSM RCV/HARBOR ORG/MILL KD/0123456789ABCDEF.P.PAYMENT1.KEYA IV/E0123456789ABCDEF CTP/258 "
    for length in [*range(0, 26), 63, 64, 65, len(line)]:
        yield 0x133457799BBCDFF1, line[:length], None


def sealed(key, text):
    """A message with its MAC made here, over what stands after `CSM(` and before `MAC/`."""
    front, tag, _ = text.partition("MAC/")
    if not tag:
        return text
    digits = f"{mac(key, front[4:].encode()):08X}"
    return f"{front}MAC/{digits[:4]} {digits[4:]} )"


def messages():
    """Messages of each class, with a MAC of zeros: every form of a KSM that is written, and the longest."""
    key, longest = "0123456789ABCDEF", "ABCDEFGHIJKLMNOP"
    for rcv, org in (("HARBOR", "MILL"), ("MILL", "HARBOR"), ("A", "9"), (longest, longest[::-1])):
        head = f"RCV/{rcv} ORG/{org} "
        top = 0x133457799BBCDFF1
        for service in ("", "IV", "KD", "KD.IV", "KK", "KK.IV", "KK.KD", "KK.KD.IV", "*KK", "*KK.IV", "*KK.KD", "*KK.KD.IV"):
            yield top, f"CSM(MCL/RSI {head}SVR/{service} )"
        yield top, f"CSM(MCL/RSM {head}MAC/0000 0000 )"
        for letters in ("I", "K", "O", "F", "M", "FM", "ABFIKMOU"):
            yield top, f"CSM(MCL/ESM {head}ERF/{letters} )"
        for ctp, ctr, letters in ((5, 4, "P"), (99_999_999, 1, "FP"), (10, 99_999_999, "MP"), (258, 257, "FMP")):
            yield top, f"CSM(MCL/ESM {head}CTP/{ctp} CTR/{ctr} ERF/{letters} )"
        for sub in ("", ".P", "..K1", ".P.K1", "...TOP", ".P..TOP", "..K1.TOP", f".P.{longest}.{longest}"):
            kd = f"KD/{key}{sub} "
            for rest in ("", f"KD/FEDCBA9876543210{sub} ", f"IV/P{key} ", f"KD/{key[::-1]} IV/E{key} EDK/840229235959 ",
                         f"KD/FEDCBA9876543210{sub} IV/E{key} EDK/991231235959 "):
                for nos, count in (("", 1), ("", 99_999_998), ("NOS/ ", 99_999_998)):
                    yield top, f"CSM(MCL/KSM {head}{nos}{kd}{rest}CTP/{count} MAC/0000 0000 )"


def main():
    records, answers = [], []

    def add(operation, left, right, count, block, answer, ends=()):
        line = f"{operation} {left:016x} {right:016x} {count:016x} {block:016x}"
        records.append("\n".join([line, *ends]))
        answers.append(" ".join([line, *ends, f"{answer:016x}"]))

    for key, plain, answer in cipher_vectors():
        if seal(key, key, plain) != answer:
            sys.exit(f"published answer not confirmed: key {key:016X} block {plain:016X} answer {answer:016X}")
        add("E", key, 0, 0, plain, answer)
        add("D", key, 0, 0, answer, plain)
    for left, right, count, data in sealed_keys():
        single, pair = left ^ count, (left ^ count, right ^ count)
        add("S", left, 0, count, data, seal(single, single, data))
        add("U", left, 0, count, seal(single, single, data), data)
        add("T", left, right, count, data, seal(*pair, data))
        add("V", left, right, count, seal(*pair, data), data)
    for left, right, org, rcv, count, data, answer in notarized_keys():
        seals, unseals = "NO" if right is None else "PQ"
        ends = [f"{org:16} {rcv:16}"]
        add(seals, left, right or 0, count, data, answer, ends)
        add(unseals, left, right or 0, count, answer, data, ends)
    for key, text, answer in texts():
        if answer is not None and mac(key, text) != answer:
            sys.exit(f"published MAC not confirmed: key {key:016X} answer {answer:08X}")
        records.append(f"M {key:016x} {0:016x} {len(text):016x} {0:016x}\n{text.decode()}")
        answers.append(f"{text.decode()} {mac(key, text):08x}")
    for key, text in messages():
        records.append(f"W {key:016x} {0:016x} {len(text):016x} {0:016x}\n{text}")
        answers.append(sealed(key, text))
    store("crates/vectors/stdin", records)
    store("crates/vectors/stdout", answers + [f"{len(records)} lines"])
    notarized = ["# data keys under notarizing keys: left, right or -, ORG, RCV, CTP, data key, sealed"]
    for left, right, org, rcv, count, data, answer in notarized_keys():
        shown = "-" if right is None else f"{right:016X}"
        notarized.append(f"{left:016X} {shown} {org} {rcv} {count} {data:016X} {answer:016X}")
    store("tests/vectors/notarized.txt", notarized)
    print(f"{len(records)} lines")


def store(name, lines):
    """Writes a file, or with --check says whether it is there already just so."""
    path = ROOT / name
    text = "".join(line + "\n" for line in lines)
    if sys.argv[1:] == ["--write"]:
        path.write_text(text)
    elif path.read_text() != text:
        sys.exit(f"{name} is not what this script makes: run it with --write")


main()

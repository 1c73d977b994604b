"""The inputs that fuzzing starts from: messages of each class, requests with each flag, images of each phase and fault.

usage: seeds.py --write | --check    writes the files of tests/fuzz/seeds, or compares them

An input's layout stands in input.h. Texts are put right by the harness (finish.h): their KDs and IVs stand here in the
clear.
"""
import pathlib
import re
import sys

HERE = pathlib.Path(__file__).parent
FINISHED, SHORT, LONG, EDITED = 1, 2, 4, 16
TOP, EXPECTED, PHASE, INCOMING = (1 + at for at in (33, 53, 57, 107))  # places in a record, behind its kind
OWN_RECORD, MILL, ABBEY = 128, 0, 1  # slots
KEY, OTHER = "133457799BBCDFF1", "0E329232EA6D0D73"
seeds = {}


def names_of(header, enum):
    """The names of an enum in a header, in order."""
    body = re.search(r"enum %s \{(.*?)\}" % enum, (HERE / header).read_text(), re.S)[1]
    return re.findall(r"[A-Z_]+", re.sub(r"/\*.*?\*/", "", body, flags=re.S))


CALLS, TABLES = names_of("input.h", "call"), names_of("tables.h", "table")


def seed(name, call, table, *slices, room=0, flags=0, edits=()):
    """Adds an input: slices are texts or bytes, edits are (slot, place, byte)."""
    assert name not in seeds, name
    parts = [part.encode() if isinstance(part, str) else bytes(part) for part in slices]
    head = bytes([CALLS.index(call), TABLES.index(table), room, flags + EDITED * len(edits)])
    body = b"".join(bytes([len(part)]) + part for part in parts[:-1]) + parts[-1]
    seeds[name] = head + b"".join(map(bytes, edits)) + body


def text(name, table, contents, finished=True, org="MILL", rcv="HARBOR", **more):
    """Adds a text to be received: a class, and the fields behind ORG."""
    kind, _, fields = contents.partition(" ")
    message = f"CSM(MCL/{kind} RCV/{rcv} ORG/{org} {fields})"
    seed("receive-" + name, "RECEIVE", table, message, flags=FINISHED * finished, **more)


def request(count, first=(KEY, 0, ""), second=(OTHER, 0, ""), iv_kind=0, date="", notarized=0):
    """The 74 bytes of a request."""
    asked = [bytes.fromhex(key) + bytes([flags]) + name.ljust(16).encode() for key, flags, name in (first, second)]
    iv = bytes([iv_kind]) + bytes.fromhex("1234567890ABCDEF")
    dated = bytes([date != ""]) + date.rjust(12, "0").encode()
    return bytes([count]) + b"".join(asked) + iv + dated + bytes([notarized])


def messages():
    mac = "MAC/0000 0000 "
    text("rsi-for-one-key", "IDLE", "RSI SVR/ ")
    text("rsi-for-all", "CONFIRMED", "RSI SVR/*KK.KD.IV EDC/0123 4567 ")
    text("rsi-with-an-option", "IDLE", "RSI IDU/ANYONE ")
    text("ksm-one-key", "IDLE", f"KSM KD/{KEY} CTP/1 {mac}")
    both = f"KD/{KEY}.P.ONE.TOP KD/{OTHER}...TOP IV/E1234567890ABCDEF EDK/840229235959 "
    text("ksm-two-named-keys-iv-date", "IDLE", f"KSM {both}CTP/258 {mac}", org="ABBEY")
    text("ksm-plain-iv", "TAKEN", f"KSM KD/{KEY}..P IV/P0000000000000000 CTP/9 {mac}")
    text("ksm-in-the-last-slot", "FULL", f"KSM KD/{KEY}.P KD/{KEY} CTP/99999998 {mac}", org="ABBEY")
    text("ksm-bad-iv-F", "IDLE", f"KSM KD/{KEY} IV/X1234567890ABCDEF CTP/5 {mac}")
    text("ksm-another-name-I", "IDLE", f"KSM KD/{KEY}...OTHER CTP/5 {mac}")
    text("ksm-even-key-K", "IDLE", f"KSM KD/03{KEY[2:]}.P CTP/5 {mac}")
    text("ksm-other-mac-M", "IDLE", f"KSM KD/{KEY} CTP/5 {mac}", finished=False)
    text("ksm-old-count-P", "TAKEN", f"KSM KD/{KEY} CTP/1 {mac}")
    text("ksm-last-count-P", "IDLE", f"KSM KD/{KEY} CTP/99999999 {mac}", org="ABBEY")
    text("ksm-FMP", "SPENT", f"KSM KD/{KEY} IV/E EDK/991301000000 CTP/7 {mac}", finished=False)
    text("ksm-notarized", "TAKEN", f"KSM NOS/ KD/{KEY} CTP/2 {mac}")
    text("ksm-notarized-pair", "IDLE", f"KSM NOS/ {both}CTP/258 {mac}", org="ABBEY")
    text("ksm-notarized-K", "IDLE", f"KSM NOS/ KD/03{KEY[2:]}.P CTP/5 {mac}")
    text("ksm-notarized-otherwise-M", "IDLE", f"KSM NOS/ KD/{KEY} CTP/5 {mac}", finished=False)
    text("ksm-nos-twice", "IDLE", f"KSM NOS/ NOS/ KD/{KEY} CTP/5 {mac}")
    text("ksm-nos-without-a-key", "IDLE", "KSM NOS/ IDC/ANYONE ")
    text("ksm-with-an-option", "IDLE", "KSM *KKU/ANY REST-OF.IT ")
    text("rsm-for-one-key", "WAITING", f"RSM {mac}")
    text("rsm-for-two-keys", "FULL", f"RSM {mac}", org="ABBEY")
    text("rsm-other-mac-M", "BOTH", f"RSM {mac}", finished=False)
    text("rsm-nothing-waits", "CONFIRMED", f"RSM {mac}")
    text("esm-with-a-lower-count", "SPENT", "ESM CTP/7 CTR/6 ERF/ABFIKMOPU EDC/0123 4567 ", org="ABBEY")
    text("esm-spends-the-count", "BOTH", "ESM CTP/99999999 CTR/1 ERF/P ")
    text("dsm", "IDLE", "DSM ANY REST ")
    text("not-for-us", "IDLE", "RSI SVR/KD ", rcv="ANYONE")
    text("from-no-partner", "HOLES", "RSI SVR/KD ", org="P2")
    text("no-message", "IDLE", "RSI SVR/IV.KD ")
    text("512-bytes", "IDLE", "ERS " + "A" * 478 + " ")
    text("513-bytes", "IDLE", "ERS " + "A" * 479 + " ")
    text("no-room", "IDLE", "RSI SVR/KD ", room=1)


def building():
    for flags in range(8):
        count, kind, date = 1 + flags % 2, flags % 3, "991231000000" if flags // 2 % 2 else ""
        seed(f"ksm-flags-{flags}", "BUILD_KSM", TABLES[1 + flags % 5 * (flags % 5 != 1)], ("MILL", "ABBEY")[flags // 4],
             request(count, (KEY, flags, "NAME1"), (OTHER, 7 - flags, "NAME2"), kind, date))
    seed("ksm-while-waiting", "BUILD_KSM", "WAITING", "MILL", request(1))
    seed("ksm-last-count", "BUILD_KSM", "SPENT", "MILL", request(1))
    seed("ksm-even-key", "BUILD_KSM", "IDLE", "MILL", request(2, second=("03" + OTHER[2:], 1, "")))
    seed("ksm-equal-keys", "BUILD_KSM", "IDLE", "MILL", request(2, second=(KEY, 0, "")))
    for partner in ("MILL", "ABBEY"):
        seed(f"ksm-notarized-for-{partner}", "BUILD_KSM", "BROKEN", partner, request(2, iv_kind=2, notarized=1))
    seed("ksm-notarized-2", "BUILD_KSM", "IDLE", "MILL", request(1, notarized=2))
    seed("ksm-a-byte-short", "BUILD_KSM", "IDLE", "MILL", request(1)[:-1])
    seed("ksm-bad-name", "BUILD_KSM", "IDLE", "MILL", request(1, (KEY, 2, "A B")))
    seed("rsi-built", "BUILD_RSI", "CONFIRMED", "ABBEY", "KK.KD.IV")


def custody():
    top = bytes.fromhex("0123456789ABCDEFFEDCBA9876543210")
    seed("ask", "ASK", "FULL", "ABBEY")
    seed("give-up", "GIVE_UP", "BOTH", "ABBEY")
    seed("start", "START", "EMPTY", "ABCDEFGHIJKLMNOP")
    seed("load-single", "LOAD", "EMPTY", "MILL", "TOP", top[:8])
    seed("load-pair", "LOAD", "HOLES", "Z9", "A", top)
    seed("load-taken", "LOAD", "IDLE", "MILL", "TOP", top[:8])
    seed("load-full", "LOAD", "FULL", "NEW", "TOP", top[:8])
    seed("remove", "REMOVE", "FULL", "MILL")


def images():
    """An image of each kind of fault, and one that is legal though no call makes it; ask finds out."""
    faults = {
        "phase-4": (MILL, PHASE, 4), "even-top-key": (ABBEY, TOP + 15, 3),
        "count-too-high": (ABBEY, EXPECTED, 255), "kind-3": (MILL, 0, 3), "twins": None,
        "a-byte-where-none-is-used": (MILL, INCOMING + 48, 1), "own-identity-malformed": (OWN_RECORD, 1, 97),
        "legal-confirmed": (MILL, PHASE, 2),
    }
    for name, edit in faults.items():
        edits = [(ABBEY, 1 + at, byte) for at, byte in enumerate(b"MILL ")] if edit is None else [edit]
        seed("image-" + name, "ASK", "WAITING", "MILL", edits=edits)
    seed("image-a-byte-short", "GIVE_UP", "WAITING", "MILL", flags=SHORT)
    seed("image-a-byte-long", "RECEIVE", "FULL", "", flags=LONG)


def main():
    if sys.argv[1:] not in (["--write"], ["--check"]):
        sys.exit(__doc__)
    messages(), building(), custody(), images()
    folder = HERE / "seeds"
    if sys.argv[1] == "--write":
        folder.mkdir(exist_ok=True)
        for file in folder.iterdir():
            file.unlink()
        for name, contents in seeds.items():
            (folder / name).write_bytes(contents)
    stored = {file.name: file.read_bytes() for file in folder.iterdir()}
    if differ := sorted(name for name in stored.keys() | seeds.keys() if stored.get(name) != seeds.get(name)):
        sys.exit("these seeds are not what seeds.py makes: " + " ".join(differ))
    print(f"{len(seeds)} seeds")


main()

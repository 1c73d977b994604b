#!/usr/bin/env python3
"""Makes crates/lister/stdin and stdout: document 01's example, each class and option, lines that are no messages, empty,
512, 513 and very long lines, and a last line without its end. What each line is is written here by hand beside it."""
import pathlib
import sys

ROOT = pathlib.Path(__file__).resolve().parents[2]
KEY = "0123456789ABCDEF"
HEAD = "RCV/HARBOR ORG/MILL "


def rest_of(length):
    """A DSM of so many bytes, its rest filled with letters."""
    text = f"CSM(MCL/DSM {HEAD}"
    return text + "A" * (length - len(text) - 2) + " )"


LINES = [
    # document 01's example
    (f"CSM(MCL/RSI {HEAD}SVR/KD.IV )", "RSI"),
    ("CSM", "-"),
    # each class
    (f"CSM(MCL/RSI {HEAD}SVR/ EDC/0123 ABCD )", "RSI"),
    (f"CSM(MCL/KSM {HEAD}KD/{KEY} CTP/1 MAC/0123 4567 )", "KSM"),
    (f"CSM(MCL/KSM {HEAD}KD/{KEY}.P.K1.TOP KD/{KEY}...TOP IV/E{KEY} EDK/840229235959 CTP/99999999 MAC/89AB CDEF )", "KSM"),
    (f"CSM(MCL/KSM {HEAD}NOS/ KD/{KEY} CTP/1 MAC/0123 4567 )", "KSM"),
    (f"CSM(MCL/RSM {HEAD}MAC/0123 4567 )", "RSM"),
    (f"CSM(MCL/ESM {HEAD}ERF/M )", "ESM"),
    (f"CSM(MCL/ESM {HEAD}CTP/5 CTR/4 ERF/FMP EDC/0123 4567 )", "ESM"),
    # each option
    *[(f"CSM(MCL/{name} {HEAD})", name) for name in ("DSM", "ERS", "RFS", "RTR")],
    (f"CSM(MCL/DSM {HEAD}IDD/KEY1 MAC/0123 4567 )", "DSM"),
    *[(f"CSM(MCL/KSM {HEAD}{tag}/X-Y.* )", "KSM") for tag in ("IDC", "KK", "*KK", "KKU", "*KKU", "KDU")],
    *[(f"CSM(MCL/RSI {HEAD}{tag}/X )", "RSI") for tag in ("IDU", "IDC")],
    # no messages
    ("", "-"),
    (" ", "-"),
    (f"CSM(MCL/RSI {HEAD}SVR/IV.KD )", "-"),
    (f"CSM(MCL/RSI {HEAD}SVR/KD.IV )\r", "-"),
    (f" CSM(MCL/RSI {HEAD}SVR/KD.IV )", "-"),
    (f"CSM(MCL/RSI {HEAD}SVR/KD.IV)", "-"),
    *[(f"CSM(MCL/KSM {HEAD}{fields}CTP/1 MAC/0123 4567 )", "-") for fields in
      ("NOS/ ", f"NOS/X-Y.* KD/{KEY} ", f"NOS/ NOS/ KD/{KEY} ", f"NOS/ IDC/X KD/{KEY} ", f"KD/{KEY} NOS/ ")],
    (f"CSM(MCL/KSM {HEAD}KD/{KEY}. CTP/1 MAC/0123 4567 )", "-"),
    (f"CSM(MCL/KSM {HEAD}KD/{KEY} CTP/01 MAC/0123 4567 )", "-"),
    (f"CSM(MCL/KSM {HEAD}KD/{KEY} CTP/100000000 MAC/0123 4567 )", "-"),
    (f"CSM(MCL/KSM {HEAD}KD/{KEY} CTP/1 MAC/0123 456f )", "-"),
    (f"CSM(MCL/ESM {HEAD}CTP/5 CTR/4 ERF/M )", "-"),
    (f"CSM(MCL/ESM {HEAD}ERF/MF )", "-"),
    (f"CSM(MCL/RSM {HEAD}IDD/X MAC/0123 4567 )", "-"),
    (f"CSM(MCL/XXX {HEAD}MAC/0123 4567 )", "-"),
    ("CSM(MCL/RSM RCV/ABCDEFGHIJKLMNOPQ ORG/MILL MAC/0123 4567 )", "-"),
    ("caf\u00e9 \u0000 \u007f", "-"),
    # lengths
    (rest_of(512), "DSM"),
    (rest_of(513), "-"),
    ("A" * 512, "-"),
    ("A" * 513, "-"),
    ("CSM(" * 2500, "-"),
    (f"CSM(MCL/RSM {HEAD}MAC/FFFF FFFF )", "RSM"),
    # the last line has no end
    (f"CSM(MCL/ESM {HEAD}ERF/ABFIKMOU )", "ESM"),
]


def main():
    text = "\n".join(line for line, _ in LINES).encode("latin-1")
    rows = ["line class bytes"]
    for number, (line, name) in enumerate(LINES, 1):
        rows.append(f"{number} {name} {len(line) if len(line) <= 512 else '>512'}")
    rows.append(f"total {len(LINES)} read {sum(name != '-' for _, name in LINES)}")
    for name, made in (("stdin", text), ("stdout", "".join(row + "\n" for row in rows).encode())):
        path = ROOT / "crates" / "lister" / name
        if sys.argv[1:] == ["--write"]:
            path.write_bytes(made)
        elif path.read_bytes() != made:
            sys.exit(f"crates/lister/{name} is not what this script makes: run it with --write")


main()

#!/usr/bin/env python3
"""How long the VIPR files of certificates without blocks are, and whether the checker of tools/tests/vipr.py accepts them.

    bench/vipr.py [STEPS] [NAME..]      STEPS: of each search (20 where no number is given); NAME: only models whose names begin so
    BPRICE=program bench/vipr.py        another program than ./bprice
    SECONDS=60 bench/vipr.py            how long a search may take (60); one that takes longer has a line that says so

For each model of `bench/models.py`, without its decomposition and with up to 16 cuts, it prints the claim, the bytes of the certificate, the derived
lines and bytes of the file, the processor seconds that tools/to_vipr.py and the checker took, and what the checker proves.
"""
import os
import subprocess
import sys
import tempfile
import time

from models import SIZES, make

HERE = os.path.dirname(os.path.realpath(__file__))
BPRICE = os.environ.get("BPRICE", f"{HERE}/../bprice")
SECONDS = float(os.environ.get("SECONDS", "60"))
sys.dont_write_bytecode = True
sys.path[:0] = [f"{HERE}/../tools", f"{HERE}/../tools/tests"]
import check_certificate  # noqa: E402
import to_vipr  # noqa: E402
import vipr  # noqa: E402


def measured(lp, cert):
    """The cells of a line: of a certificate, and of the file that is made of it."""
    begin = time.process_time()
    assert check_certificate.check(lp, cert).startswith("accepted")
    translation, pieces = to_vipr.Translation(lp, cert, None, 1_000_000, 0), []
    translation.write(type("File", (), {"write": staticmethod(pieces.append)}))
    text = "".join(pieces)
    between = time.process_time()
    proved = vipr.prove(text)
    return [cert.split(b"\n", 2)[1].decode().removeprefix("claim "), str(len(cert)), str(len(translation.derivations.texts)), str(len(text)),
            f"{between - begin:.1f}", f"{time.process_time() - between:.1f}", proved]


def main():
    steps = sys.argv[1] if len(sys.argv) > 1 and sys.argv[1].isdigit() else "20"
    begins = tuple(word for word in sys.argv[1:] if not word.isdigit())
    print("| model | claim | bytes | derived | bytes of VIPR | s | s of the checker | proved |\n|---|---|---|---|---|---|---|---|")
    with tempfile.TemporaryDirectory() as folder:
        for name in SIZES:
            if begins and not name.startswith(begins):
                continue
            lp, cert = f"{folder}/lp", f"{folder}/cert"
            with open(lp, "w", encoding="ascii") as file:
                file.write(make(name)[0])
            try:
                ran = subprocess.run([BPRICE, "solve", lp, "--steps", steps, "--cuts", "16", "--cert", cert], capture_output=True, text=True,
                                     timeout=SECONDS, check=False)
                if ran.returncode in (0, 4, 5):
                    with open(lp, "rb") as model, open(cert, "rb") as certificate:
                        cells = measured(model.read(), certificate.read())
                else:
                    cells = [ran.stdout.strip()] + [""] * 6
            except subprocess.TimeoutExpired:
                cells = [f"no certificate within {SECONDS:.0f} s"] + [""] * 6
            print("| " + " | ".join([name, *cells]) + " |", flush=True)


if __name__ == "__main__":
    main()

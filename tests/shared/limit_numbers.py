"""The limits of the accepted profile by their names, as MAX_FACES, read from the file that the codec has them from."""
import pathlib
import re

FILE = pathlib.Path(__file__).resolve().parents[2] / "crates/drc_base/src/limits.rt"
LIMITS = {name: int(number, 0) for name, number in re.findall(r"^pub const (MAX_[A-Z_]+): u\d+ = (\w+);$", FILE.read_text(), re.MULTILINE)}
globals().update(LIMITS)

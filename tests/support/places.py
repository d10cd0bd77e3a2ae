"""Where things lie in the repository."""
from pathlib import Path

TOP = Path(__file__).resolve().parents[2]
SESSIONS = TOP / "crates" / "sessions" / "data"
CLIENTS = TOP / "clients"
EXAMPLES = TOP / "examples"

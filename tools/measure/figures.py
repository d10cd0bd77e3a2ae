"""Where figures come from: the machine, the commit and the date, as the head of their table."""
import datetime
import os
import subprocess

TOP = os.path.dirname(os.path.dirname(os.path.dirname(os.path.realpath(__file__))))


def told(*words: str) -> str:
    """What a command prints, without its newline."""
    return subprocess.run(words, cwd=TOP, stdout=subprocess.PIPE, check=True, text=True).stdout.strip()


def machine() -> str:
    """The processor, how many there are, and the memory."""
    with open("/proc/cpuinfo", encoding="utf-8") as lines:
        name = next((line.partition(":")[2].strip() for line in lines if line.startswith("model name")), "unknown processor")
    gigabytes = os.sysconf("SC_PAGE_SIZE") * os.sysconf("SC_PHYS_PAGES") / 1e9
    return f"{name}, {os.cpu_count()} processors, {gigabytes:.0f} GB"


def origin(**more: str) -> str:
    """A table of one row: the machine, the commit, the date, and what else is given."""
    commit, date = told("git", "rev-parse", "--short", "HEAD"), datetime.date.today().isoformat()
    row = {"Machine": machine(), "Commit": commit, "Date": date, **more}
    return "\n".join(f"| {' | '.join(cells)} |" for cells in (row, ["---"] * len(row), row.values()))

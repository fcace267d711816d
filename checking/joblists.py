"""The gates, given pins and records of a chip or job, as the library takes them, by readings that share nothing with the library or the tool."""
import pathlib
import sys

ROOT = pathlib.Path(__file__).resolve().parent.parent
sys.path[:0] = [str(ROOT / "aiger"), str(ROOT / "examples")]
import jobs  # noqa: E402
import reader  # noqa: E402


def lists(job):
    """Of a job as examples/jobs.py has it."""
    gates = [literal for pin in range(job.pins + 1) for literal in (job.gates[pin][1] if pin in job.gates else [reader.EMPTY] * 2)]
    return gates, [pin for _, pin in job.given], [number for _, word, numbers in job.records for number in (jobs.KINDS[word], *numbers)]


def of(path):
    """Of an AIGER file or a job's text."""
    path = pathlib.Path(path)
    if path.suffix == ".aag":
        gates, records, _ = reader.read(path.read_bytes())
        return list(gates), [], list(records)
    return lists(jobs.parsed(path.read_text()))

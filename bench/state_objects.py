"""What `radixvm state --json` writes, read back by Python's own reader of JSON: the line of `radixvm state` that each object stands for."""
import json


def line_of(members):
    """The line. Each member is taken once, and none may be left."""
    left = dict(members)

    def where():
        if "page" in left:
            return " " + left.pop("page")
        return f" {left.pop('first')}-{left.pop('end')}" if "first" in left else ""

    if "core" not in left:
        if "epoch" in left:
            line = f"epoch {left.pop('epoch'):d}"
        elif "mapping" in left:
            line = left.pop("mapping")
        elif "global" in left:
            line = f"frame {left.pop('frame'):d} count {left.pop('count'):d} global {left.pop('global'):d}"
            line += " dirty" if left.get("dirty") is True and left.pop("dirty") else ""
        else:
            line = f"page {left.pop('page')}"
            line += f" frame {left.pop('frame'):d}" if "frame" in left else ""
            line += " cores " + " ".join(f"{core:d}" for core in left.pop("cores")) if "cores" in left else ""
    else:
        line = f"core {left.pop('core'):d}"
        if "call" in left:
            line += f" {left.pop('call')}{where()}"
        elif "holds" in left:
            line += " holds" + where() if left.pop("holds") is True else ""
        elif "took" in left:
            line += f" took frame {left.pop('took'):d}"
        elif "count" in left:
            line += f" count frame {left.pop('frame'):d} {left.pop('count'):+d}"
        elif "queue" in left:
            line += f" queue frame {left.pop('queue'):d} epoch {left.pop('epoch'):d}"
        elif "flushed" in left:
            line += " flushed" if left.pop("flushed") is True else ""
        elif "inbox" in left:
            due = left.pop("inbox")
            line += f" inbox from {left.pop('from'):d}{where()} {due}"
        else:
            place = "tlb" if "tlb" in left else "table"
            line += f" {place} {left.pop(place)} frame {left.pop('frame'):d} {left.pop('rights')}"
            line += f" stale: {left.pop('stale')}" if "stale" in left else ""
    if left:
        raise SystemExit(f"{members} has {left} that no line shows")
    return line


def text_of(written):
    """The text of the state of which these are the objects."""
    return "".join(line_of(json.loads(line)) + "\n" for line in written.splitlines())

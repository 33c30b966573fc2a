"""A worker or an executor that answers everything, and that puts into each output by which process it was made.

The program is in the start folder, and is started in a room two folders below. With `--persistent_worker` among its
arguments it is a worker, whose outputs are the request's arguments `--out=PATH`; it ends at the argument `--die`.
Without it, it is an executor, which gives each output of a job, except for a job with an output that the file
`unanswered` of the start folder names: that job isn't answered. A process records at its start how many processes of
its kind are alive, in the folder `alive`.
"""
import os
import sys

TOP = "../.."
NAME = os.path.basename(sys.argv[0])
WORKER = "--persistent_worker"


def varint(number: int) -> bytes:
    out = bytearray()
    while number > 127:
        out.append(number % 128 + 128)
        number //= 128
    return bytes(out) + bytes([number])


def read(count: int) -> bytes:
    out = b""
    while len(out) < count:
        piece = os.read(0, count - len(out))
        if not piece:
            sys.exit(0)
        out += piece
    return out


def read_varint() -> int:
    number = shift = 0
    while True:
        byte = read(1)[0]
        number |= byte % 128 << shift
        shift += 7
        if byte < 128:
            return number


def fields(message: bytes) -> list[tuple[int, int, bytes]]:
    """Returns each field of a message: its number, and its value or its bytes."""
    out, at = [], 0

    def number() -> int:
        nonlocal at
        value = shift = 0
        while True:
            byte = message[at]
            at += 1
            value |= byte % 128 << shift
            shift += 7
            if byte < 128:
                return value

    while at < len(message):
        tag, value = number(), number()
        if tag % 8 == 2:
            out.append((tag // 8, 0, message[at : at + value]))
            at += value
        else:
            out.append((tag // 8, value, b""))
    return out


def span(field: int, value: bytes) -> bytes:
    return varint(8 * field + 2) + varint(len(value)) + value


def put(message: bytes) -> None:
    os.write(1, varint(len(message)) + message)


def lives(pid: str) -> bool:
    """Returns true if this process is there and hasn't ended."""
    try:
        with open(f"/proc/{pid}/stat", encoding="utf-8") as file:
            return file.read().rpartition(")")[2].split()[0] not in "ZX"
    except OSError:
        return False


def count(kind: str) -> None:
    """Records in `alive/KIND.PID` how many processes of this kind are alive, this one among them."""
    place, own = f"{TOP}/alive", f"{kind}.{os.getpid()}"
    os.makedirs(place, exist_ok=True)
    with open(f"{place}/{own}", "w", encoding="utf-8"):
        pass
    living = [it for it in os.listdir(place) if it.rpartition(".")[0] == kind and lives(it.rpartition(".")[2])]
    with open(f"{place}/{own}", "w", encoding="utf-8") as file:
        file.write(str(len(living)))


def work() -> None:
    said = " ".join([NAME, *sys.argv[1:]])
    while True:
        parts = fields(read(read_varint()))
        words = [value.decode() for field, _, value in parts if field == 1]
        verbosity = next((number for field, number, _ in parts if field == 5), 0)
        if "--die" in words:
            sys.exit(0)
        for path in [word.partition("=")[2] for word in words if word.startswith("--out=")]:
            with open(path, "w", encoding="utf-8") as file:
                file.write(f"{said} {verbosity}")
        put(b"")


def execute() -> None:
    said = " ".join([NAME, *sys.argv[1:]]).encode()
    put(varint(8 * 8) + varint(2))
    while True:
        parts = fields(read(read_varint()))
        number = next(value for field, value, _ in parts if field == 1)
        outputs = [value for field, _, value in parts if field == 4]
        with open(f"{TOP}/unanswered", encoding="utf-8") as file:
            held = file.read().split()
        if any(field == 6 for field, _, _ in parts) or any(it.decode() in held for it in outputs):
            continue
        put(varint(8) + varint(number) + b"".join(span(4, span(1, it) + span(2, said)) for it in outputs))


def main() -> None:
    if WORKER in sys.argv:
        count("worker")
        count("key" + "".join(sys.argv[1:]).replace("/", "").replace(".", ""))
        work()
    count(NAME)
    execute()


main()

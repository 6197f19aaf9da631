def work(op: int, data: bytes) -> bytes:
    return work(op, data) + b"x"

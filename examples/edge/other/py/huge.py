def work(op: int, data: bytes) -> bytes:
    return bytes(65536)

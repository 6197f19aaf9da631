def work(op: int, data: bytes) -> bytes:
    return bytes(1 // 0)

#!/usr/bin/env python3
"""Compares the frozen guests with the same guests unfrozen, which run the prelude or the schema at the beginning of each request: random
requests, of which each must have the same reply.

usage: PYTHONPATH=capi/python WASMLOOP_LIBRARY=LIBRARY test.py FOLDER [COUNT [SEED]]

FOLDER is what build.sh wrote. One in twenty of the COUNT requests (default: 400) is in SQL, the others are in Lua. Ends with 1 if a reply differs.
"""

from __future__ import annotations

import os
import pathlib
import random
import sys
from concurrent.futures import ThreadPoolExecutor
from typing import Callable, List, Tuple, Union

from wasmloop import Module

HERE = pathlib.Path(__file__).resolve().parent
FUEL, DEPTH, THREADS = 1 << 32, 128, os.cpu_count() or 1


def cart(rng: random.Random) -> str:
    """The text of a cart, now and then with what is no article."""
    return " ".join(f"{rng.choice(['sku', 'sku', 'sku', 'no'])}{rng.randrange(1, 520)}={rng.randrange(30)}" for _ in range(rng.randrange(9)))


def in_lua(rng: random.Random) -> str:
    programs: List[Callable[[], str]] = [
        lambda: f'print(cart("{cart(rng)}"))',
        lambda: f'local s = 0 for i = 1, {rng.randrange(50)} do s = s + rates["sku" .. i].price end print(s)',
        lambda: f'rates.sku1.price = {rng.randrange(999)}; rules[1] = nil; print(pcall(cart, "sku1=2 {cart(rng)}"))',
        lambda: f'local t = {{}} for k, r in pairs(rates) do if r.price > {rng.randrange(900, 1000)} then t[#t + 1] = k end end '
                'table.sort(t) print(table.concat(t, ","))',
        lambda: f'print(string.format("%5.2f|%s|%x", {rng.random() * 100}, ("x"):rep({rng.randrange(40)}), {rng.randrange(1 << 40)}))',
        lambda: f'error("article {rng.randrange(99)} is sold out", 0)',
        lambda: f'print(select({rng.randrange(1, 9)}, pcall(error, {{ code = 7 }})) and #rules, math.floor({rng.random() * 1e6}))',
    ]
    return rng.choice(programs)()


def in_sql(rng: random.Random) -> str:
    some = rng.randrange(1, 1010)
    return rng.choice([
        f"select * from product where id between {some} and {some + rng.randrange(9)};",
        f"select tag, count(*), sum(price), avg(price) from product where price < {some} group by tag order by 1;",
        f"select name from product where name like '%{some}%' order by price, id limit 5;",
        f"update product set price = price + {some} where tag = '{chr(97 + some % 26)}'; select sum(price), max(name) from product;",
        f"delete from product where id > {some}; insert into product values ({some + 1}, 'new', 1.5, null); select count(*), min(price) from product;",
        f"insert into product values ({some}, 'twice', 1, 'x');",
        f"select a.id, b.id from product a join product b on a.price = b.price and a.id < b.id where a.id < {some} order by 1, 2 limit 9;",
        f"select nothing from product where id = {some};",
        f"with recursive f(n, x) as (select 1, 1 union all select n + 1, x * {some % 7 + 2} from f where n < 9) select printf('%d %.2f', n, x / 7.0) from f;",
    ])


class Pair:
    """A guest, frozen and not."""

    def __init__(self, folder: pathlib.Path, names: Tuple[str, str], prelude: str, request: Callable[[random.Random], str]) -> None:
        self.cold, self.warm = (Module((folder / f"{it}.wasm").read_bytes()) for it in names)
        self.prelude, self.request = (HERE / prelude).read_bytes(), request

    def compare(self, seed: int) -> Union[Tuple[int, int], str]:
        """The units of both, or what is wrong."""
        request = self.request(random.Random(seed)).encode()
        cold, warm = (module.work(0, data, FUEL, DEPTH) for module, data in ((self.cold, self.prelude + b"\n" + request), (self.warm, request)))
        return (cold.used, warm.used) if cold[:3] == warm[:3] else f"{request.decode()}: {cold}, frozen {warm}"


def main(folder: pathlib.Path, count: int = 400, seed: int = 1) -> int:
    wrong = 0
    for name, pair, share in (("Lua", Pair(folder, ("lua", "shop"), "prelude.lua", in_lua), count - count // 20),
                              ("SQLite", Pair(folder, ("sqlite", "stock"), "schema.sql", in_sql), count // 20)):
        with ThreadPoolExecutor(THREADS) as pool:
            told = list(pool.map(pair.compare, range(seed << 32, (seed << 32) + share)))
        differing = [it for it in told if isinstance(it, str)]
        print(*(f"WRONG: {it}" for it in differing[:5]), sep="\n", end="\n" if differing else "")
        cold, warm = (sum(it[k] for it in told if not isinstance(it, str)) // max(share, 1) for k in (0, 1))
        print(f"warm: {name}: {share - len(differing)} of {share} requests have the same reply, by {warm:,} units in place of {cold:,}")
        wrong += len(differing)
    return 1 if wrong else 0


if __name__ == "__main__":
    sys.exit(main(pathlib.Path(sys.argv[1]), *map(int, sys.argv[2:])))

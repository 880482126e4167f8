"""Sells apples out of a stock that several programs share."""

import concurrent.futures
import subprocess
import tempfile
import time
import uuid


class StoreError(Exception):
    """A run that didn't end with 0: its status, and the replies of the lines that were answered."""

    def __init__(self, done, replies):
        super().__init__(f"status {done.returncode}: {done.stderr.decode().strip()}")
        self.status, self.replies = done.returncode, replies


def word(text):
    """A key or a value of any octets, as a script writes it."""
    return "0x" + text.encode().hex()


def text(word):
    """What a reply's key or value says."""
    return bytes.fromhex(word[2:]).decode() if word.startswith("0x") else word


def run(folder, *commands):
    """The replies to commands, in order, each as its words. It waits at most ten seconds for the folder."""
    script = "".join(f"app: {command}\n" for command in commands)
    for _ in range(100):
        done = subprocess.run(["im", "run"], cwd=folder, input=script.encode(), capture_output=True)
        replies = [line.split(" ")[2:] for line in done.stdout.decode().splitlines()]
        if done.returncode != 6 or replies:
            break
        time.sleep(0.1)
    if done.returncode != 0:
        raise StoreError(done, replies)
    return replies


def sell(folder, order, count):
    """Takes so many apples from the stock for an order, and gives the transaction that did it. Called again for the
    same order, also after a StoreError, it takes none, and gives the same transaction."""
    request, stock = word(f"order/{order}"), word("stock/apples")
    while True:
        [_, left, _, read] = run(folder, f"get {stock}")[0]
        rest = word(str(int(text(left)) - count))
        reply = run(folder, f"set missing:{request} since:{stock}@{read} {request}={word(str(count))} {stock}={rest}")[0]
        if reply[0] in ("tx", "exists"):
            return int(reply[-1])
        if reply[0] != "modified":
            raise ValueError(" ".join(reply))
        # Another one sold in between: read again.


def verify(folder, stream):
    """What became of each message of a stream, by the client whose file is in the folder."""
    done = subprocess.run(["im", "verify"], cwd=folder, input=stream.encode(), capture_output=True)
    return done.returncode, done.stdout.decode().splitlines()


def main():
    orders = [str(uuid.uuid4()) for _ in range(8)]
    with tempfile.TemporaryDirectory() as folder, tempfile.TemporaryDirectory() as client:
        run(folder, f"set {word('stock/apples')}={word('100')}")
        with concurrent.futures.ThreadPoolExecutor(4) as pool:
            done = list(pool.map(lambda order: sell(folder, order, 1), orders))
        print("sold by the transactions", sorted(done))
        print("the first one again:", "the same" if sell(folder, orders[0], 1) == done[0] else "another")
        print("left:", text(run(folder, f"get {word('stock/apples')}")[0][1]))
        [state, item] = run(folder, "state", "item 9 1")
        print(*verify(client, f"{state[0]}\n{item[0]}\n"))


main()

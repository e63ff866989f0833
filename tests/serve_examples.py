"""Tries the examples that ask `serve`, or draw what it replies.

usage: serve_examples.py PROGRAM
"""

import subprocess
import sys
import tempfile
from concurrent.futures import ThreadPoolExecutor

import serving
from serving import HOST, SECONDS, TWO_ROUTERS, Client, free_port, same

SIX_ROUTERS = """# six routers
link r0 r1 1
link r0 r2 7
link r1 r2 1
link r1 r3 3
link r1 r4 2
link r2 r4 4
link r3 r4 1
link r3 r5 6
link r4 r5 2
"""

def output_of(words, given=b"", status=0):
    """What a command writes to standard output and to standard error. It ends with this status."""
    done = subprocess.run(words, input=given, capture_output=True, timeout=SECONDS)
    same(f"the status of {words[1]}", done.returncode, status)
    return done.stdout, done.stderr


def ask(port, *words, status=0):
    return output_of([sys.executable, "examples/client.py", f"--seconds={SECONDS}", *words[:-1], HOST, str(port),
                      *words[-1]], status=status)


def wait_until_listening(server):
    """Takes one of the server's sessions to see that it listens."""
    with Client(server.port) as first:
        first.leaves(0)


def try_client(program):
    requests = ["CUT r0 r5", "PATH r0 r5", "WEAKEST", "TREE", "RUN", "NET", "WITNESS r0 r5", "CERTIFICATE"]
    session = "\n".join(["LOAD", SIX_ROUTERS + "END", *requests, ""]).encode()
    wanted, _ = output_of([program, "plan"], session)
    with tempfile.NamedTemporaryFile() as text, serving.serving(program, 1, 4) as server:
        text.write(SIX_ROUTERS.encode())
        text.flush()
        wait_until_listening(server)
        same("what the client prints", ask(server.port, "--load", text.name, requests), (wanted, b""))
        text.write(b"END\nCUT r0 r1\n")
        text.flush()
        loaded = b"@2 LOADED routers 6 links 9\n"
        same("of a text with END", ask(server.port, "--load", text.name, []), (loaded, b""))
        same("of refusals", ask(server.port, ["CUT a b", "BYE"], status=1), (b"@2 NO 4\n@2 BYE\n", b""))
        server.ended(4, 2)


def try_client_complaints(program):
    with serving.serving(program, 1, 2) as server:
        wait_until_listening(server)
        output, why = ask(server.port, ["BYE", "TREE"], status=2)
        same("what is printed of a session that ended", output, b"@0 BYE\n")
        same("whether it complains", why.startswith(b"client.py: "), True)
        server.ended(2, 0)
    for words in [["TREE"], ["LOAD"], ["# a remark"], [" "], ["TREE\nRUN"]]:
        output, why = ask(free_port(), words, status=2)
        same(f"what is printed where nobody answers {words}", output, b"")
        same("whether it complains", why.count(b"client.py: "), 1)


def try_early_client(program):
    port = free_port()
    with ThreadPoolExecutor(1) as pool:
        early = pool.submit(ask, port, f"--wait={SECONDS}", ["CUT a b"], status=1)
        with serving.serving(program, 1, 1, port) as server:
            same("what an early client prints", early.result(SECONDS), (b"@0 NO 6\n", b""))
            server.ended(1, 0)


def draw(reply, status=0):
    return output_of([sys.executable, "examples/draw_tree.py"], reply, status)


def try_drawing(program):
    session = "\n".join([*TWO_ROUTERS[:-1], "link b c-1 4", "END", "TREE", "CUT a b", ""]).encode()
    replies, _ = output_of([program, "plan"], session)
    drawing = b'graph cut_tree {\n    "a" -- "b" [label="5"];\n    "b" -- "c-1" [label="4"];\n}\n'
    same("the drawing", draw(replies), (drawing, b""))
    same("that of one router", draw(b"@1 TREE 0\n"), (b"graph cut_tree {\n}\n", b""))
    for reply in [b"", b"@1 NO 6\n", b"@1 TREE 1\n", b"@1 TREE 2\nb a 5\n", b"@1 TREE 1\nb a\n", b"\xff\n"]:
        output, why = draw(reply, 1)
        same(f"what is drawn of {reply}", output, b"")
        same("whether it complains", why.startswith(b"draw_tree.py: "), True)


TRIALS = [
    ("examples/client.py prints what plan writes", try_client),
    ("examples/client.py complains", try_client_complaints),
    ("examples/client.py waits until somebody listens", try_early_client),
    ("examples/draw_tree.py draws, and complains", try_drawing),
]

if __name__ == "__main__":
    serving.run(TRIALS)

"""A new master, as far as lines matter: it starts the next one by LAUNCH, and passes on what is for others."""
import os
import subprocess
import sys

own, child = "", None


def answer(line: str) -> str:
    """What a call is answered. That of another master is passed on."""
    global own, child
    image, call, *about = line.split(" ", 2)
    own = own or image
    if image != own:
        if child is None:
            return "master-gone"
        try:
            child.stdin.write(f"{line}\n")
            child.stdin.flush()
        except BrokenPipeError:
            pass
        return child.stdout.readline().rstrip("\n") or "master-gone"
    if call == "spawn-master":
        child = subprocess.Popen([os.environ["LAUNCH"], "adopt"], stdin=subprocess.PIPE, stdout=subprocess.PIPE, text=True)
        return "spawned"
    if call == "term-master" and child:
        child.stdin.close()
        child.wait()
        child = None
    return {"process": str(os.getpid()), "echo": "".join(about), "program": sys.argv[-1]}.get(call, "ok")


for text in sys.stdin:
    print(answer(text.rstrip("\n")), flush=True)
if child:
    child.stdin.close()
    child.wait()

"""Drives flume-tags as a co-process: a plug-in is started, and what it says goes out only where the monitor says so."""
import subprocess


class Monitor:
    def __init__(self, *words):
        pipe = subprocess.PIPE
        self.program = subprocess.Popen(["./flume-tags", *words], stdin=pipe, stdout=pipe, text=True)

    def ask(self, line):
        """The answers to a line. The line `audit` behind it ends them: it alone is answered `admitted`."""
        self.program.stdin.write(f"{line}\naudit\n")
        self.program.stdin.flush()
        answers = []
        for answer in self.program.stdout:
            if answer.startswith("admitted "):
                return answers
            answers.append(answer.rstrip("\n"))
        raise EOFError(f"flume-tags ended with status {self.program.wait()}")


monitor = Monitor()
[alice] = monitor.ask("1 proc")
tag = monitor.ask(f"1 tag {alice} export")[0].split()[1]
[plugin] = monitor.ask(f"1 spawn {alice} {{}}")
# the label comes first, and then what it stands for; a real driver starts the plug-in in a sandbox
assert monitor.ask(f"1 label {plugin} S {{{tag}}}") == ["ok"]
found = subprocess.run(["tr", "a-z", "A-Z"], input=b"friday", stdout=subprocess.PIPE, check=True).stdout
# the plug-in may not let out what it found, and Alice may
for pid in (plugin, alice):
    [verdict] = monitor.ask(f"1 emit {pid} none")
    print(pid, verdict, found.decode() if verdict.startswith("out ") else "(held back)")
print(monitor.ask("# nothing"), monitor.ask("1 text"))

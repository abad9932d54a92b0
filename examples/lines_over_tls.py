"""Serves one flume-tags to several machines, by lines over TLS: lines_over_tls.py PORT [WORD..]"""
import asyncio
import ssl
import sys


async def main(port, *words):
    pipe = asyncio.subprocess.PIPE
    program = await asyncio.create_subprocess_exec("./flume-tags", *words, stdin=pipe, stdout=pipe)
    turn = asyncio.Lock()

    async def ask(line):
        """The answers to a line, as driver.py has them, and an empty line behind them."""
        program.stdin.write(line + b"\naudit\n")
        answers = b""
        while not (answer := await program.stdout.readline()).startswith(b"admitted "):
            if not answer:
                raise EOFError("flume-tags ended")
            answers += answer
        return answers + b"\n"

    async def serve(reader, writer):
        """Answers the lines of a machine: its certificate has its node's number as common name."""
        try:
            subject = writer.get_extra_info("peercert")["subject"]
            [number] = [value for [(key, value)] in subject if key == "commonName"]
            async for line in reader:
                # nobody speaks for the processes of others, nor sets their aliases
                is_own = line.split(b" ")[0] == number.encode() and b"$" not in line
                async with turn:
                    writer.write(await ask(line.rstrip()) if is_own else b"not yours\n\n")
                await writer.drain()
        finally:
            writer.close()

    trusted = ssl.create_default_context(ssl.Purpose.CLIENT_AUTH, cafile="ca.pem")
    trusted.verify_mode = ssl.CERT_REQUIRED
    trusted.load_cert_chain("monitor.pem", "monitor.key")
    await asyncio.start_server(serve, port=int(port), ssl=trusted)
    # all connections end with it, and so should all real processes
    sys.exit(await program.wait())


asyncio.run(main(*sys.argv[1:]))

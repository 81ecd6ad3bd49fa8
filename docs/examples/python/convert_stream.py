"""A server that sends back in UTF-8 what it is sent in Shift_JIS, and prints what is lost.

    python3 convert_stream.py PORT

It converts chunk by chunk: a client need not wait for the end, and however much it sends, a chunk of it is in memory.
"""

import asyncio
import sys

import jillapun


async def answer(reader: asyncio.StreamReader, writer: asyncio.StreamWriter) -> None:
    converter = jillapun.Converter("shift_jis", "utf-8")
    while not converter.report:
        data = await reader.read(4096)
        part = converter.convert(data, last=not data)
        for loss in part.losses:
            print(loss)
        writer.write(part.output)
        await writer.drain()
    print(converter.report.summary)
    writer.close()


async def main() -> None:
    async with await asyncio.start_server(answer, "localhost", int(sys.argv[1])) as server:
        await server.serve_forever()


if __name__ == "__main__":
    asyncio.run(main())

"""A TURN client of aioice at coturn's server: STUN, and ChannelData of two channels. Its channel numbers begin at 0x4000,
so they are those of RFC 8656; coturn's own client takes any number that RFC 5766 allowed."""
import asyncio
import aioice.turn


async def turn():
    transport, _ = await aioice.turn.create_turn_endpoint(
        asyncio.DatagramProtocol, server_addr=("127.0.0.1", 3478), username="booth", password="booth")
    for octets in range(20, 80, 10):
        for port in (3480, 3481):  # where turnutils_peer sends everything back
            transport.sendto(bytes(octets), ("127.0.0.1", port))
            await asyncio.sleep(0.1)
    transport.close()
    await asyncio.sleep(0.5)


asyncio.run(turn())

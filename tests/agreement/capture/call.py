"""One WebRTC call between two peers on the loopback interface, by aiortc: ICE's STUN, DTLS with use_srtp, SRTP and
SRTCP, all on one port for each peer, as at the Media Distributor's port."""
import asyncio
import aioice.ice
from aiortc import RTCPeerConnection
from aiortc.mediastreams import AudioStreamTrack

# The loopback address is otherwise left out of the candidates.
aioice.ice.get_host_addresses = lambda use_ipv4, use_ipv6: ["127.0.0.1"]


async def call():
    one, other = RTCPeerConnection(), RTCPeerConnection()
    one.addTrack(AudioStreamTrack())
    other.addTrack(AudioStreamTrack())
    channel = one.createDataChannel("octets")

    @channel.on("open")
    def opened():
        channel.send("a message inside DTLS")

    await one.setLocalDescription(await one.createOffer())
    await other.setRemoteDescription(one.localDescription)
    await other.setLocalDescription(await other.createAnswer())
    await one.setRemoteDescription(other.localDescription)
    await asyncio.sleep(4)
    await one.close()
    await other.close()


asyncio.run(call())

"""Channels: a message through the layer of channels_redis."""
import asyncio

from told import PORT, feature, plain

from channels_redis.core import RedisChannelLayer

MESSAGE = {"type": "x", "n": 1}


async def sent(receives):
    layer = RedisChannelLayer(hosts=[("127.0.0.1", PORT)])
    await asyncio.wait_for(layer.send("channel", MESSAGE), 5)
    return await asyncio.wait_for(layer.receive("channel"), 5) if receives else plain().zcard("asgichannel")


feature("send", lambda: asyncio.run(sent(False)), 1)
feature("receive", lambda: asyncio.run(sent(True)), MESSAGE)

#!/usr/bin/python3
"""Subscribes to a prefix, publishes, prints the event, and leaves: examples/heat.py [PORT [json]]

It needs Autobahn|Python (Debian: apt install python3-autobahn) and a broker: ./wampd serve --port 9000 plant.one
"""
import asyncio
import sys
from autobahn.asyncio.rawsocket import WampRawSocketClientFactory, WampRawSocketClientProtocol
from autobahn.asyncio.wamp import ApplicationSession
from autobahn.wamp.serializer import JsonSerializer, MsgPackSerializer
from autobahn.wamp.types import ComponentConfig, PublishOptions, SubscribeOptions

# Debian's 22.7.1 reads this when a session is welcomed, and doesn't set it for RawSocket over asyncio.
WampRawSocketClientProtocol.transport_details = property(lambda protocol: protocol._transport_details)


class Heat(ApplicationSession):
    async def onJoin(self, details):
        def on_heat(*args, details):
            print(details.topic, args)
            self.leave()

        await self.subscribe(on_heat, "plant.hall", SubscribeOptions(match="prefix", details=True))
        await self.publish("plant.hall.heat", 21, "north", options=PublishOptions(acknowledge=True, exclude_me=False))

    def onDisconnect(self):
        asyncio.get_running_loop().stop()


serializer = JsonSerializer() if "json" in sys.argv[2:] else MsgPackSerializer()
factory = WampRawSocketClientFactory(lambda: Heat(ComponentConfig(realm="plant.one")), serializer=serializer)
loop = asyncio.new_event_loop()
asyncio.set_event_loop(loop)
loop.run_until_complete(loop.create_connection(factory, "127.0.0.1", int(sys.argv[1]) if sys.argv[1:] else 9000))
loop.run_forever()

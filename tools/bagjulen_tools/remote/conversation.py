"""The conversation of the engine with real Git, round by round."""

from collections.abc import Callable

from bagjulen_tools.engine import Engine
from bagjulen_tools.formats.report import Report
from bagjulen_tools.formats.scene import Scene
from bagjulen_tools.protocol.upload_pack import Server

DONE = b"done\n"


def converse(scene: Scene, server: Server, engine: Engine,
             answered_with: Callable[[Scene], None] = lambda scene: None) -> Report:
    """Adds to a scene what the server says to each request, and answers the report of the whole.

    The engine is run on the scene so far, and its report tells the requests that it sent. The first one that has
    no answer yet gets its answer from the server, and so on until each has one. `answered_with` looks at the scene
    after each answer, and may refuse it.
    """
    scene.server = [server.greeting()]
    while True:
        report = engine.fetch(scene.to_bytes())
        requests, answered = report.requests(), len(scene.server) - 1
        if len(requests) <= answered or server.refusal is not None:
            return report
        scene.server.append(server.answer(requests[answered]))
        answered_with(scene)

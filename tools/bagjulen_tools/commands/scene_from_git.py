"""Writes the scene of a fetch from one real repository into another.

References, work trees, border, configuration and objects are those of CLIENT. What the server says is what real
`git upload-pack` says of SERVER, with plain packs in place of Git's own; to learn what is asked, the engine is run
on the scene so far, round by round. Neither repository is changed.
"""

import argparse
import os

from bagjulen_tools.engine import PROGRAM, Engine
from bagjulen_tools.files import temporary_folder
from bagjulen_tools.formats.scene import Scene
from bagjulen_tools.protocol.allowed import Entries
from bagjulen_tools.protocol.connection import connect, local
from bagjulen_tools.protocol.upload_pack import Server, unbundled
from bagjulen_tools.remote.client import remote_of, scene_of
from bagjulen_tools.remote.conversation import converse
from bagjulen_tools.repository.git import Repository
from bagjulen_tools.trouble import BAD_INPUT, DONE, GIT_REFUSED, ToolParser, Trouble, write_file, write_output


def words(given: list[str]) -> argparse.Namespace:
    """What the words say."""
    parser = ToolParser(__doc__)
    parser.add_argument("client", metavar="CLIENT", help="a repository")
    parser.add_argument("server", metavar="SERVER", help="a repository, a bundle, or an address as for `git fetch`")
    parser.add_argument("specs", metavar="REFSPEC", nargs="*", default=[],
                        help="none: those of --remote in CLIENT's configuration")
    parser.add_argument("-o", "--output", metavar="FILE", help="where the scene is written (else standard output)")
    parser.add_argument("-c", dest="overrides", metavar="KEY=VALUE", action="append", default=[],
                        help="an entry of the configuration, as in `git -c`")
    parser.add_argument("--remote", default="origin", metavar="NAME", help="whose refspecs and tags (origin)")
    parser.add_argument("--tags", choices=["all", "included", "none"], help="which tags are fetched")
    parser.add_argument("--extra", metavar="REFSPEC", action="append", default=[], help="an extra refspec")
    parser.add_argument("--option", dest="options", metavar="OPTION", action="append", default=[],
                        help="an option of the scene, as `dry-run` or `depth 3`")
    parser.add_argument("--lenient", action="store_true", help="pass over values that can't be read")
    parser.add_argument("--without-head", action="store_true", help="leave the client's HEAD out")
    parser.add_argument("--engine", default=PROGRAM, metavar="PROGRAM", help="the engine (bagjulen beside tools/)")
    return parser.parse_intermixed_args(given)


def begun(asked: argparse.Namespace, client: Repository) -> Scene:
    """The scene without what the server says."""
    specs, tags = remote_of(client, asked.remote)
    scene = scene_of(client, asked.overrides, asked.without_head)
    scene.lenient = asked.lenient
    scene.address = asked.server
    scene.specs = asked.specs or specs
    scene.tags = asked.tags or (tags if not asked.specs else "included")
    scene.extra = asked.extra
    scene.options = asked.options
    return scene


def opened(address: str, folder: str, entries: Entries) -> Server:
    """The server of a repository, a bundle or an address. A folder takes what a bundle has."""
    is_path = "://" not in address and (":" not in address or "/" in address.partition(":")[0])
    if is_path and not os.path.exists(address):
        raise Trouble(BAD_INPUT, f"{address} is no repository and no bundle: there is nothing")
    if os.path.isfile(address):
        return Server(local(unbundled(address, folder)))
    return Server(local(Repository(address).git_dir) if is_path else connect(address, entries=entries))


def main(arguments: list[str]) -> int:
    asked = words(arguments)
    engine, client = Engine(asked.engine), Repository(asked.client)
    engine.start()
    scene = begun(asked, client)
    with temporary_folder() as folder:
        server = opened(asked.server, folder, client.entries(asked.overrides))
        try:
            converse(scene, server, engine)
        finally:
            server.close()
    if server.refusal is not None:
        raise Trouble(GIT_REFUSED, f"git upload-pack refused: {server.refusal}")
    if asked.output is None:
        write_output(scene.to_bytes())
    else:
        write_file(asked.output, scene.to_bytes())
    return DONE

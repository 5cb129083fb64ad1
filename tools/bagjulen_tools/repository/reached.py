"""A repository with what its references reach, and nothing else."""

from bagjulen_tools.formats.bundle import direct_ids, links_within_grammar
from bagjulen_tools.formats.plainpack import Object
from bagjulen_tools.formats.scene import Scene
from bagjulen_tools.repository.git import Repository
from bagjulen_tools.repository.object_reader import ObjectReader
from bagjulen_tools.trouble import BAD_INPUT, Trouble


def reached_state(repository: Repository) -> Scene:
    """References as their files say them, border, and the objects that direct references reach.

    An object that can't be read, or that breaks the grammar of its kind, is refused by its id where it is
    reached.
    """
    state = Scene(hash_name=repository.hash_name(), git_dir=repository.git_dir,
                  references=repository.reference_files(), border=repository.border())
    border = set(state.border)

    def linked(each: Object) -> list[str]:
        links = links_within_grammar(each, state.hash_name)
        return links.others + ([] if each.id in border else links.parents)

    with ObjectReader(repository) as reader:
        state.objects = list(reader.reached(direct_ids(state.references), linked))
        for digits, told in reader.damaged.items():
            raise Trouble(BAD_INPUT, f"the object {digits} can't be read: {told}")
    return state

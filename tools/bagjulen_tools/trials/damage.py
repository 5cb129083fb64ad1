"""Damage to a repository, made from a seed alone."""

from bagjulen_tools.formats.ancestry import links_of


class Damage:
    """Ways in which a repository, as a scene, comes to harm. Each answers what it did, or None where there is nothing to harm."""

    def __init__(self, random, state):
        self.random = random
        self.state = state

    def some(self, times):
        """What is done, so many times, each in a way that is drawn."""
        ways = [lambda: self.lose("blob"), lambda: self.lose("tree"), lambda: self.lose("commit"), self.lead_to_nothing,
                self.lead_in_a_circle, self.cut_off]
        done = [self.random.choice(ways)() for _ in range(times)]
        return [each for each in done if each is not None]

    def lose(self, kind):
        """An object of a kind is gone."""
        lost = self._drawn(each for each in self.state.objects if each.kind == kind)
        if lost is None:
            return None
        self.state.objects.remove(lost)
        return f"{kind} {lost.id} is gone"

    def lead_to_nothing(self):
        """A reference has an id that isn't there."""
        names = (name for name, target in self.state.references.items() if target[0] != "@")
        name = self._drawn(names) or "refs/heads/lost"
        digits = "".join(self.random.choice("0123456789abcdef") for _ in range(40 if self.state.hash_name == "sha1" else 64))
        self.state.references[name] = digits
        return f"{name} is {digits}"

    def lead_in_a_circle(self):
        """Some names lead to each other."""
        names = [f"refs/heads/circle-{number}" for number in range(self.random.randint(1, 7))]
        self.state.references |= {name: f"@{after}" for name, after in zip(names, names[1:] + names[:1])}
        return f"{len(names)} names lead in a circle"

    def cut_off(self):
        """A commit with parents enters the border."""
        commits = {each.id for each in self.state.objects if each.kind == "commit"}
        cut = self._drawn(digits for digits, named in links_of(self.state.objects).items() if digits in commits and named)
        if cut is None:
            return None
        self.state.border = sorted({*self.state.border, cut})
        return f"the border has {cut}"

    def _drawn(self, values):
        values = sorted(values, key=lambda each: getattr(each, "id", each))
        return self.random.choice(values) if values else None

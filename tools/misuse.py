"""Says of words that a job does not take what the program says of them, so that nobody waits for a
proof to read it. It knows the options by what the program prints of itself (tools/help), and leaves
it to the program what a value may be. tests/help compares both."""

import re

OPTION = re.compile(r"^ +(?:-h, )?(--[a-z-]+)(?: (<[A-Z]+>))?(?= |$)", re.M)
PLACE = re.compile(r" (?:<([A-Z]+)>|\[([A-Z]+)\])")
MORE = "For more information, try '--help'.\n"


def misuse_of(job, words, printed):
    """The complaint of words that this job does not take, or lacks; None if it takes them. The job
    prints this of itself."""
    return Job(job, printed).misuse_of(words)


class Job:
    """A job's options, each as a usage shows it, and those that have to be given; and behind them
    the words without a name that it takes, of which the first few have to be given."""

    def __init__(self, name, printed):
        self.name, self.usage = name, re.search("^Usage: .*$", printed, re.M)[0]
        self.options = {it: f"{it} {value}".strip() for it, value in OPTION.findall(printed)}
        self.needed = re.findall("--[a-z-]+", self.usage)
        usage = self.usage.replace(" [OPTIONS]", "")
        for option in self.options.values():
            usage = usage.replace(f" {option}", "")
        places = PLACE.findall(usage)
        self.places = [needed or other for needed, other in places]
        self.needed_places = sum(bool(needed) for needed, _ in places)

    def misuse_of(self, words):
        given, taken, waiting = [], 0, None
        for place, word in enumerate(words):
            name = "--help" if word.startswith("-h") else word.partition("=")[0]
            if word == "--":
                rest = words[place + 1 :]
                free = len(self.places) - taken
                if len(rest) > free:
                    return self.unexpected(rest[free])
                return self.lack(given, taken + len(rest), waiting)
            if word == "-" or not word.startswith("-"):
                if waiting:
                    given, waiting = [*given, waiting], None
                elif taken < len(self.places):
                    taken += 1
                else:
                    return self.unexpected(word)
            elif name not in self.options:
                if word.startswith("--"):
                    return self.unknown(name, given, taken)
                return self.unexpected(word[:2], tip=self.tip_of_value(word[:2]))
            elif waiting:
                return self.lack(given, taken, waiting)
            elif name == "--help":
                return None
            elif "<" in self.options[name] and "=" not in word:
                waiting = name
            else:
                given.append(name)
        return self.lack(given, taken, waiting)

    def unknown(self, name, given, taken):
        alike = {it: similarity(name[2:], it[2:]) for it in self.options}
        likely = max(reversed(list(alike)), key=alike.get)
        if alike[likely] <= 0.7:
            return self.unexpected(name, given, taken, self.tip_of_value(name))
        tip = f"  tip: a similar argument exists: '{likely}'\n\n"
        return self.unexpected(name, [*given, likely], taken, tip)

    def tip_of_value(self, word):
        return f"  tip: to pass '{word}' as a value, use '-- {word}'\n\n" if self.places else ""

    def unexpected(self, word, given=(), taken=0, tip=""):
        usage = self.usage_with(given, taken)
        return f"error: unexpected argument '{word}' found\n\n{tip}{usage}{MORE}"

    def lack(self, given, taken, waiting):
        """The complaint that a value lacks, or else what has to be given."""
        if waiting:
            option = self.options[waiting]
            return f"error: a value is required for '{option}' but none was supplied\n\n{MORE}"
        lacks = [f"  {self.options[it]}\n" for it in self.needed if it not in given]
        lacks += [f"  <{it}>\n" for it in self.places[taken : self.needed_places]]
        fault = "error: the following required arguments were not provided:\n" + "".join(lacks)
        return f"{fault}\n{self.usage_with([*self.needed, *given], taken)}{MORE}" if lacks else None

    def usage_with(self, given, taken):
        """The usage for whoever gave these options, and so many words without a name."""
        shown = [self.options[it] for it in dict.fromkeys([*self.needed, *given])]
        sure = max(taken, self.needed_places)
        shown += [f"<{it}>" if at < sure else f"[{it}]" for at, it in enumerate(self.places)]
        usage = " ".join(["Usage: relay", self.name, *shown]) if given or taken else self.usage
        return f"{usage}\n\n"


def similarity(one, other):
    """The likeness of two names from 0 to 1, by Jaro: the letters that both have at about the same
    place, less half of those that are in another order."""
    reach = max(len(one), len(other)) // 2 - 1
    places, letters = [], []
    for at, letter in enumerate(one):
        near = range(max(0, at - reach), min(len(other), at + reach + 1))
        if found := [it for it in near if other[it] == letter and it not in places]:
            places.append(found[0])
            letters.append(letter)
    moved = sum(it != other[at] for it, at in zip(letters, sorted(places))) // 2
    same = len(letters)
    return same and (same / len(one) + same / len(other) + (same - moved) / same) / 3

"""Counts words, and shows what brackets do."""
import sys
from collections import (Counter,
  defaultdict)


class Words(object):
    limit: int = 10

    def __init__(self, text, *, lower=True, **options):
        words = text.split()
        self.words = [word.lower() if lower else word for word in words
  if word]
        self.by_length = defaultdict(list)
        for word in self.words:
            self.by_length[len(word)].append(word)
        else:
            pass

    @property
    def most(self):
        table = {
'first': Counter(self.words).most_common(self.limit)[0:1],
            "all": self.words,
        }
        if not self.words: return None
        elif len(self.words) > 2 and self.words[-1] != "":
            return table
        return lambda n, m=1: n ** -m


def main(arguments):
    try:
        for name in arguments[1:]:
            with open(name) as file:
                print(Words(file.read()).most, end="\n")
    except (OSError, ValueError) as error:
        print(f"cannot read: {error}", file=sys.stderr); return 1
    finally:
        count = total = 0
    return 0


if __name__ == "__main__":
    sys.exit(main(sys.argv))

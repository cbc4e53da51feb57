#!/usr/bin/env python3
"""The season's file by another way: a model of searches over plain lists, to compare with what `search` writes.

Usage: season_model.py FILE..   (good lines only; sets that are sized once; ciphers aes, mkv128 and mkv256, whitened or not)
Of a link it counts bytes: in cbc whole blocks go out, and the leader's set keeps the last one back until more comes or the link closes.
"""
import sys

RECORD = 11
CELLS = {"aes": {16: 11, 24: 13, 32: 15}, "mkv128": {16: 13, 24: 15, 32: 17}, "mkv256": {32: 26, 48: 30, 64: 34}}


def need(cipher, length):
    """The key cells of a key, or none where it is refused."""
    coats, width = len(cipher) - 1, 32 if cipher[-1] == "mkv256" else 16
    length -= 2 * width * coats
    cells = CELLS[cipher[-1]].get(length)
    return None if cells is None else cells + 2 * width // 16 * coats


class Set:
    def __init__(self, cells, keys):
        self.cells, self.keys, self.lists, self.used = cells, keys, {}, 0

    def free(self):
        return self.cells - sum(map(len, self.lists.values()))

    def room(self):
        return self.keys - self.used


class Link:
    def __init__(self, mode, cells, width):
        self.cbc, self.cells, self.width = mode in ("cbc", "1"), cells, width
        self.text, self.listed = [], 0

    def came(self):
        """How many bytes of the text the leader's set has given."""
        sent = sum(2 + RECORD * len(report) for report in self.text)
        if not self.cbc:
            return sent
        return max(0, (sent // self.width - 1) * self.width)

    def list_up_to(self, bytes_, leader, onto):
        at = 0
        for i, report in enumerate(self.text):
            at += 2 + RECORD * len(report)
            if i >= self.listed and at <= bytes_:
                self.listed = i + 1
                if leader.free() < len(report):
                    break
                leader.lists.setdefault(onto, []).extend(report)


def search(lines):
    sets, order, title, cipher, links = {}, [], None, ["aes"], {}
    for line in lines:
        words = [word.rstrip(",;:") for word in line.split("#")[0].split()]
        if not words:
            continue
        if words[0] == "search":
            title = " ".join(line.split("#")[0].split()[1:])
            continue
        if words[0] == "radio":
            cipher = words[1:]
            continue
        if words[0] in ("leader", "patroller"):
            sets[words[1]] = Set(int(words[3]), int(words[6]) if len(words) > 5 else 0)
            order.append(words[1])
            continue
        second = sum(int(a) * b for a, b in zip(words[0].split(":"), (3600, 60, 1)))
        name, does, rest = words[1], words[2], words[3:]
        own, leader, place = sets[name], sets[order[0]], order.index(name)
        width = 32 if cipher[-1] == "mkv256" else 16
        if does in ("hears", "sweeps"):
            if does == "hears":
                records, at = [(rest[0], rest[2], rest[5], second)], int(rest[8])
            else:
                at, figures = int(rest[1]), rest[2:]
                records = [(figures[i], figures[i + 1], figures[i + 3], second) for i in range(0, len(figures), 4)]
            if at < 16 and own.free() >= len(records):
                own.lists.setdefault(at, []).extend(records)
        elif does == "loses" and rest[0] == "list":
            own.lists.pop(int(rest[1]), None)
        elif does == "gets" and rest[1] == "key":
            own.keys = int(rest[0])
        elif does == "opens":
            cells = need(cipher, int(rest[3]))
            if cells is None or rest[1] not in ("cbc", "cfb", "ofb", "1", "2", "3"):
                continue
            if min(own.room(), leader.room()) >= cells:
                links[name] = Link(rest[1], cells, width)
                own.used += cells
                leader.used += cells
        elif does == "reports" and name in links:
            links[name].text.append(list(own.lists.get(int(rest[1]), [])))
            links[name].list_up_to(links[name].came(), leader, place)
        elif does in ("closes", "loses") and name in links:
            link = links.pop(name)
            if does == "closes":
                link.list_up_to(1 << 60, leader, place)
            own.used -= link.cells
            leader.used -= link.cells
    for name in order:
        for at in sorted(sets[name].lists):
            for record in sets[name].lists[at]:
                yield "\t".join([title, name, *map(str, record)])


def main():
    print("search\tset\tbeacon\tmetres\tstrength\tsecond")
    for path in sys.argv[1:]:
        with open(path) as lines:
            for row in search(lines):
                print(row)


if __name__ == "__main__":
    main()

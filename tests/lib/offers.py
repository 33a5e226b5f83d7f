"""Random tag files, good and bad, with the payload files that may come with them."""
import random_bags
from random_bags import sometimes
from reference_receiver import Receiver

GOOD_NAMES = [b"t1", b"t10", b"t2", b"0", b"-", b"a-long-name", b"z" * 64]
BAD_NAMES = [b"", b"T1", b"z" * 65, b"t 1", b"t_1", b"t1\n", b"\0", b"t/1", "\u00e9".encode(), "\u0663".encode()]
BAD_PATHS = [b"", b"data", b"data/", b"data//k", b"data/../k", b"data/.", b"/data/a.txt", b".", b"..", b"data/a\0",
             b"\0", b"note/",
             b"data/" + b"n" * 4092]
UNLISTED_PATHS = [b"data/z", b"data/a.txt ", b"data/%41", b"Data/a.txt", b"a.txt", b"bagit.txt", b"data/" + b"n" * 4091]
# Paths, some of which are the folders of others.
CLASHING = [b"k", b"k/x", b"k.txt", b"k0", b"k/x/y", b"b", b"deep", b"deep/er"]
# Two contents with one MD5 digest, by X. Wang and others, 2004.
TWIN = bytes.fromhex(
    "d131dd02c5e6eec4693d9a0698aff95c2fcab58712467eab4004583eb8fb7f89"
    "55ad340609f4b30283e488832571415a085125e8f7cdc99fd91dbdf280373c5b"
    "d8823e3156348f5bae6dacd436c919c6dd53e2b487da03fd02396306d248cda0"
    "e99f33420f577ee8ce54b67080a80d1ec69821bcb6a8839396f9652b6ff72a70")
TWINS = TWIN, bytes(octet ^ 0x80 if place in (19, 45, 59, 83, 109, 123) else octet for place, octet in enumerate(TWIN))


def content(rng):
    if sometimes(rng, 20):
        return rng.choice(TWINS)
    return rng.randbytes(rng.choice([0, 1, 3, 8]) if sometimes(rng, 99) else rng.choice([65535, 65536, 65537]))


def changed(rng, octets):
    """Other octets, now and then with the same MD5 digest."""
    if octets in TWINS and sometimes(rng, 60):
        return TWINS[octets == TWINS[0]]
    return rng.choice([
        octets + b"x", octets[:-1], octets[1:] + b"\n", b"",
        bytes([octets[0] ^ 32]) + octets[1:] if octets else b"\xff", octets + b"\n" + octets.split(b"\n")[0],
        octets.replace(b"manifest-", b"tagmanifest-")])


class Offer:
    """Tag files, and the payload files that may come with them."""

    def __init__(self, rng):
        self.rng = rng
        names = CLASHING if sometimes(rng, 10) else random_bags.NAMES
        bag = random_bags.Bag(rng, rng.choice(random_bags.VERSIONS), names, content)
        payload = {(path, bag.files[path]): None for path in bag.payload()}
        if payload and sometimes(rng, 10):
            bag.files[b"fetch.txt"] = self.two_lengths(bag.version, *rng.choice(list(payload)))
        if sometimes(rng, 25):
            rng.choice(random_bags.DAMAGES)(bag)
        bag.tag_manifests()
        if sometimes(rng, 15):
            rng.choice(random_bags.DAMAGES)(bag)
        payload.update({(path, bag.files[path]): None for path in bag.payload()})
        self.version, self.payload = bag.version, list(payload)
        self.tags = [(path, octets) for path, octets in bag.files.items() if not path.startswith(b"data/")]

    def two_lengths(self, version, path, octets):
        """A fetch.txt of two lines for one path."""
        spelling = random_bags.spelled(self.rng, path, version)
        lengths = self.rng.sample([b"-", b"%d" % len(octets), b"%d" % len(octets), b"%d" % (len(octets) + 1)], 2)
        return random_bags.joined(self.rng, [b"http:x %s %s" % (length, spelling) for length in lengths])

    def shuffled(self):
        return self.rng.sample(self.tags, len(self.tags))

    def other_tags(self):
        """The tag files with changes, of which most are faults."""
        files = self.shuffled()
        for change in self.rng.choices(CHANGES, k=self.rng.choice([1, 1, 2, 3])):
            if files:
                change(self, files, self.rng.randrange(len(files)))
        return files

    def put(self, files, path, octets=b""):
        files.insert(self.rng.randrange(len(files) + 1), (path, octets))

    def put_again(self, files, place):
        path, octets = files[place]
        self.put(files, path, self.rng.choice([octets, b""]))

    def put_bad_path(self, files, _):
        self.put(files, self.rng.choice([*BAD_PATHS, b"data/q", b"data/a.txt"]))

    def put_note(self, files, _):
        self.put(files, self.rng.choice([*random_bags.TAG_NAMES, b"n" * 4096]), content(self.rng))

    def put_below(self, files, place):
        self.put(files, files[place][0] + self.rng.choice([b"/x", b"/x/y", b".x"]))

    def put_unknown_manifest(self, files, _):
        name = self.rng.choice([b"manifest-%s.txt", b"tagmanifest-%s.txt"])
        self.put(files, name % self.rng.choice(random_bags.OTHER_ALGORITHMS))

    def drop(self, files, place):
        files.pop(place)

    def change(self, files, place):
        place = self.rng.choice([place, *(other for other, (_, octets) in enumerate(files) if octets in TWINS)])
        files[place] = files[place][0], changed(self.rng, files[place][1])

    def declare(self, files, _):
        octets = self.rng.choice(random_bags.declarations(self.version))
        files[:] = [(path, octets if path == b"bagit.txt" else own) for path, own in files]

    def lengthen(self, files, _):
        """One or two files, existing or not, get the maximum number of lines or one more; now and then one gets an
        octet too many."""
        texts = [b"\n" * 100000, b"\r\n" * 99999 + b"x", b"\r\n" * 100000 + b"x", b"\r" * 100001, b"\n" * 100001]
        names = [b"manifest-md5.txt", b"tagmanifest-sha512.txt", b"fetch.txt", b"bag-info.txt", b"manifest-zz.txt"]
        longer = {name: self.rng.choice(texts) for name in self.rng.sample(names, self.rng.choice([1, 2]))}
        if sometimes(self.rng, 1):
            longer[self.rng.choice([b"note", b"bag-info.txt"])] = bytes(16777217)
        files[:] = [file for file in files if file[0] not in longer]
        for path, octets in longer.items():
            self.put(files, path, octets)

    def delivery(self):
        """A path and octets: those of a file, damaged, of another file, or for a path that isn't wanted."""
        path, octets = self.rng.choice(self.payload or [(b"data/none", b"")])
        others = [*BAD_PATHS, *UNLISTED_PATHS, path + b"/x", path.upper(), path[5:]]
        other_path, _ = self.rng.choice(self.payload or [(path, octets)])
        return self.rng.choice([(path, octets)] * 5 + [
            (path, changed(self.rng, octets)), (path, content(self.rng)), (other_path, octets),
            (self.rng.choice(others), octets)])

    def everything(self):
        """All payload files in some order, some of them twice."""
        items = self.payload + self.rng.sample(self.payload, self.rng.randrange(len(self.payload) + 1))
        return self.rng.sample(items, len(items))


CHANGES = [Offer.put_again, Offer.put_bad_path, Offer.put_note, Offer.put_below, Offer.put_unknown_manifest, Offer.drop,
           Offer.declare] * 4 + [Offer.change] * 8 + [Offer.lengthen]


def offered(rng):
    """Mostly tag files that open a transfer."""
    offer = Offer(rng)
    while sometimes(rng, 70) and Receiver().begin(b"t", offer.tags) != "new":
        offer = Offer(rng)
    return offer

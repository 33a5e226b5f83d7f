"""Small bags, each with the lines and the status that docs/FORMAT.md requires.

The digests are those that the standards publish for `abc` and for the empty message (RFC 1321, FIPS 180-4), and those
that sha256sum computes.
"""
from hostile_bags import DECLARATION, MARK, VALID, bag, not_complete

A_SHA256 = b"ba7816bf8f01cfea414140de5dae2223b00361a396177a9cb410ff61f20015ad"
E_SHA256 = b"e3b0c44298fc1c149afbf4c8996fb92427ae41e4649b934ca495991b7852b855"
A_MD5 = b"900150983cd24fb0d6963f7d28e17f72"
E_MD5 = b"d41d8cd98f00b204e9800998ecf8427e"
OF_0_97 = DECLARATION.replace(b"1.0", b"0.97")
MANIFEST = A_SHA256 + b"  data/a.txt\n" + E_SHA256 + b"  data/e.txt\n"
BOTH_BY_MD5 = A_MD5 + b"  data/a.txt\n" + E_MD5 + b"  data/e.txt\n"
MANIFESTS = [b"manifest-%s.txt" % name for name in (b"md5", b"sha1", b"sha256", b"sha512")]
TAG_MANIFESTS = [b"tag" + name for name in MANIFESTS]
# The output of sha256sum for the declaration and for this manifest.
DECLARATION_SHA256 = b"1712ecfb074bf29c4188ad3421032509159a09739fd604f8fe57038b4ddefcc9"
MANIFEST_SHA256 = b"456acbba2b2aa56b7fa3d4e9ac34b9475cc2c2a6694f5c4bd7975db51956fda7"
# The same for md5sum.
DECLARATION_MD5 = b"eaa2c609ff6371712f623f5531945b44"
MANIFEST_MD5 = b"8c29597bdd563ba8a8bd22ecc1a04b9a"

# The digests that `md5sum`, `sha1sum`, `sha256sum` and `sha512sum` compute for the first octets of a message in which
# each octet is its index modulo 251.
BY_COREUTILS = {
    1: (
        b"93b885adfe0da089cdf634904fd59f71",
        b"5ba93c9db0cff93f52b521d7420e43f6eda2784f",
        b"6e340b9cffb37a989ca544e6bb780a2c78901d3fb33738768511a30617afa01d",
        b"b8244d028981d693af7b456af8efa4cad63d282e19ff14942c246e50d9351d22"
        b"704a802a71c3580b6370de4ceb293c324a8423342557d4e5c38438f0e36910ee",
    ),
    55: (
        b"6912ee65fff2d9f9ce2508cddf8bcda0",
        b"8ae2d46729cfe68ff927af5eec9c7d1b66d65ac2",
        b"463eb28e72f82e0a96c0a4cc53690c571281131f672aa229e0d45ae59b598b59",
        b"6856647f269c2ee3d8128f0b25427659d880641ef343300dd3cd4679168f58d6"
        b"527fda70b4ebc854e2065e172b7d58c1536992c0810599259ba84a2b40c65414",
    ),
    56: (
        b"51fdd1acda72405dfdfa03fcb85896d7",
        b"636e2ec698dac903498e648bd2f3af641d3c88cb",
        b"da2ae4d6b36748f2a318f23e7ab1dfdf45acdc9d049bd80e59de82a60895f562",
        b"8b12b2f6fe400a51d29656e2b8c42a1bbfe6fcf3e425da430db05d1a2dda1479"
        b"0dee20fa8b22d8762afffe4988a5c98a4430d22a17e41e23d90fa61ab75671a9",
    ),
    63: (
        b"48a6295221902e8e0938f773a7185e72",
        b"6d942da0c4392b123528f2905c713a3ce28364bd",
        b"29af2686fd53374a36b0846694cc342177e428d1647515f078784d69cdb9e488",
        b"9dc9c5598e55dc42955695320839788e353f1d7f6ba74df74c80a8a52f463c06"
        b"97f57f68835d1418f4ce9b6530cd79bd0f4c6f7e13c93feb1218c0b65c2c0561",
    ),
    64: (
        b"b2d3f56bc197fd985d5965079b5e7148",
        b"c6138d514ffa2135bfce0ed0b8fac65669917ec7",
        b"fdeab9acf3710362bd2658cdc9a29e8f9c757fcf9811603a8c447cd1d9151108",
        b"ee4320ebaf3fdb4f2c832b137200c08e235e0fa7bbd0eb1740c7063ba8a0d151"
        b"da77e003398e1714a955d475b05e3e950b639503b452ec185de4229bc4873949",
    ),
    65: (
        b"8bd7053801c768420faf816fadba971c",
        b"69bd728ad6e13cd76ff19751fde427b00e395746",
        b"4bfd2c8b6f1eec7a2afeb48b934ee4b2694182027e6d0fc075074f2fabb31781",
        b"02856cef735f9acec6b9e33f0fbc8f9804d2aa54187f382b8ae842e5d3696c07"
        b"459aad2a5aed25ea5e117eb1c7ba35da6a7a8adce9e6afe3ad79e9fa42d5bba8",
    ),
    111: (
        b"4fad3ab7d8546851ec1bb63ea7e6f5a8",
        b"bc544e24573d592290fdaff8ecf3f7f2b00cd483",
        b"60780e9451bdc43cf4530ffc95cbb0c4eb24dae2c39f55f334d679e076c08065",
        b"a1a111449b198d9b1f538bad7f3fc1022b3a5b1a5e90a0bc860de8512746cbc3"
        b"1599e6c834de3a3235327af0b51ff57bf7acf1974a73014d9c3953812edc7c8d",
    ),
    112: (
        b"d1fec2ac3715e791ca5f489f300381b3",
        b"e4ce142d09a84a8645338dd6535cbfaaf800d320",
        b"09373f127d34e61dbbaa8bc4499c87074f2ddb10e1b465f506d7d70a15011979",
        b"c5fbd731d19d2ae1180f001be72c2c1aaba1d7b094b3748880e24593b8e117a7"
        b"50e11c1bd867cc2f96dace8c8b74abd2d5c4f236be444e77d30d1916174070b9",
    ),
    127: (
        b"8402b21e7bc7906493bae0dac017f1f9",
        b"89d7312a903f65cd2b3e34a975e55dbea9033353",
        b"92ca0fa6651ee2f97b884b7246a562fa71250fedefe5ebf270d31c546bfea976",
        b"eab89674feaa34e27aebeeff3c0a4d70070bb872d5e9f186cf1dbbdee517b6e3"
        b"5724d629ff025a5b07185e911ada7e3c8acf830aa0e4f71777bd2d44f504f7f0",
    ),
    128: (
        b"37eff01866ba3f538421b30b7cbefcac",
        b"e6434bc401f98603d7eda504790c98c67385d535",
        b"471fb943aa23c511f6f72f8d1652d9c880cfa392ad80503120547703e56a2be5",
        b"1dffd5e3adb71d45d2245939665521ae001a317a03720a45732ba1900ca3b835"
        b"1fc5c9b4ca513eba6f80bc7b1d1fdad4abd13491cb824d61b08d8c0e1561b3f7",
    ),
    129: (
        b"46f986692847558fc38b0cece591c20f",
        b"3352e41cc30b40ae80108970492b21014049e625",
        b"5099c6a56203f9687f7d33f4bfdf576d31dc91f6b695ecea38b2770c87631135",
        b"1d9da57fbbdab09afb3506ab2d223d06109d65c1c8ad197f50138f714bc4c3f2"
        b"fe5787922639c680acad1c651f955990425954ce2cba0c5cc83f2667d878eb0f",
    ),
    1_000_000: (
        b"35efddb2811ce9ecbdfa17f18472e604",
        b"1f7cafedffb2797c60013e6f95d7763bbc57c1ee",
        b"2c030d49ec131bfbbb446ad21e7a2f12cdb4f2f4f3fda3ac709dd2e68a4646c7",
        b"c64684a6d351bdb7e7e050d30d61ca838044c888d7a488142cc0001e56e86e8f"
        b"aec7ab8588dfa82243fecd146da30cce2625c494b1d0c2633fb044c3a2f9a0af",
    ),
}


# The digests that RFC 1321 (A.5) and the examples for FIPS 180-4 publish, each with the name of its algorithm.
EXAMPLES = [b"abc", b"abcdbcdecdefdefgefghfghighijhijkijkljklmklmnlmnomnopnopq",
            b"abcdefghbcdefghicdefghijdefghijkefghijklfghijklmghijklmnhijklmnoijklmnopjklmnopqklmnopqrlmnopqrsmnopqrstnopqrstu"]
LETTERS = b"ABCDEFGHIJKLMNOPQRSTUVWXYZabcdefghijklmnopqrstuvwxyz0123456789"
PUBLISHED = {
    "md5": {
        b"": E_MD5,
        b"a": b"0cc175b9c0f1b6a831c399e269772661",
        b"abc": A_MD5,
        b"message digest": b"f96b697d7cb7938d525a2f31aaf161d0",
        bytes(range(97, 123)): b"c3fcd3d76192e4007dfb496cca67e13b",
        LETTERS: b"d174ab98d277d9f5a5611c2c9f419d9f",
        b"1234567890" * 8: b"57edf4a22be3c955ac49da2e2107b67a",
    },
    "sha1": dict(zip(EXAMPLES, [
        b"a9993e364706816aba3e25717850c26c9cd0d89d",
        b"84983e441c3bd26ebaae4aa1f95129e5e54670f1",
        b"a49b2446a02c645bf419f995b67091253a04a259"])),
    "sha256": dict(zip(EXAMPLES, [
        A_SHA256,
        b"248d6a61d20638b8e5c026930c3e6039a33ce45964ff2167f6ecedd419db06c1",
        b"cf5b16a778af8380036ce59e7b0492370b249b11e8f07a51afac45037afee9d1"])),
    "sha512": dict(zip(EXAMPLES, [
        b"ddaf35a193617abacc417349ae20413112e6fa4e89a97ea20a9eeee64b55d39a"
        b"2192992a274fc1a836ba3c23a3feebbd454d4423643ce80e2a9ac94fa54ca49f",
        b"204a8fc6dda82f0a0ced7beb8e08a41657c16ef468b228a8279be331a703c335"
        b"96fd15c13b1b07f9aa1d3bea57789ca031ad85c7a71dd70354ec631238ca3445",
        b"8e959b75dae313da8cf4f72814fc143f8f7779c6eb9f7fa17299aeadb6889018"
        b"501d289e4900f7e4331b99dec4b5433ac7d329eeb6dd26545e96e55b874be909"])),
}


def tags(files=None):
    """The bag of two files, with the digests above, and with these files replaced or added."""
    return bag(files={b"manifest-sha256.txt": MANIFEST, **(files or {})})


def tags_0_97(files=None):
    """The same in version 0.97."""
    return tags({b"bagit.txt": OF_0_97, **(files or {})})


def empty(files):
    """A bag without payload files, and these files."""
    return {b"bagit.txt": DECLARATION, b"data/": None, **files}


def with_manifest(octets):
    return tags({b"manifest-sha256.txt": octets})


def complete(*lines):
    return [*lines, "complete, not valid"], 1


def outside(cause):
    return [f"outside: {cause}"], 2


def declared(version=b"1.0", encoding=b"UTF-8"):
    return b"BagIt-Version: " + version + b"\nTag-File-Character-Encoding: " + encoding + b"\n"


def declarations():
    yield "a bag of two files", tags(), VALID
    yield "no bagit.txt", tags({b"bagit.txt": None}), not_complete("no bagit.txt")
    utf8, mark, count, label, version = [not_complete(f"bagit.txt: {cause}") for cause in (
        "not UTF-8", "byte order mark", "line count", "label", "version")]
    lines = DECLARATION.split(b"\n")
    for octets, answer in [
        (DECLARATION.replace(b"\n", b"\r\n"), VALID),
        (DECLARATION.replace(b"\n", b"\r"), VALID),
        (lines[0] + b"\r\n" + lines[1], VALID),
        (DECLARATION + b"\n", count),
        (lines[0] + b"\n\n" + lines[1] + b"\n", count),
        (b"\n" + DECLARATION, count),
        (lines[0] + b" " + lines[1] + b"\n", count),
        (lines[0], count),
        (DECLARATION.replace(b"BagIt-Version", b"bagit-version"), label),
        (DECLARATION.replace(b"Version: ", b"Version:"), label),
        (b" " + DECLARATION, label),
        (DECLARATION.replace(b"Encoding:", b"Encoding"), label),
        (lines[1] + b"\n" + lines[0] + b"\n", label),
        (b"BagIt-Version: x\nEncoding: UTF-8\n", label),
        (declared(version=b"1", encoding=b""), version),
        (MARK + DECLARATION, mark),
        (MARK, mark),
        (MARK + b"\xff", utf8),
        (declared(encoding=b"\xe9"), utf8),
        (MARK[:2], utf8),
    ]:
        yield f"bagit.txt: {octets}", tags({b"bagit.txt": octets}), answer


def versions():
    """A version is two numbers of one to nine digits, without leading zeros."""
    version = not_complete("bagit.txt: version")
    for text, answer in [
        (b"1.0", VALID),
        (b"0.97", VALID),
        (b"0.96", outside("version")),
        (b"0.0", outside("version")),
        (b"1.1", outside("version")),
        (b"2.0", outside("version")),
        (b"97.0", outside("version")),
        (b"10.20", outside("version")),
        (b"999999999.999999999", outside("version")),
        (b"1000000000.0", version),
        (b"1.1000000000", version),
        (b"01.0", version),
        (b"1.00", version),
        (b"00.97", version),
        (b"1", version),
        (b"1.", version),
        (b".0", version),
        (b"1.0.0", version),
        (b"+1.0", version),
        (b"1.0 ", version),
        (b" 1.0", version),
        (b"", version),
    ]:
        yield f"version {text}", tags({b"bagit.txt": declared(version=text)}), answer


def encodings():
    """The name of an encoding is visible ASCII."""
    name = not_complete("bagit.txt: encoding name")
    for text, answer in [
        (b"UTF-8", VALID),
        (b"utf-8", VALID),
        (b"uTf-8", VALID),
        (b"ISO-8859-1", outside("encoding")),
        (b"UTF8", outside("encoding")),
        (b"!~", outside("encoding")),
        (b"UTF-8 ", name),
        (b" UTF-8", name),
        (b"UTF-8\t", name),
        (b"UTF-8\x7f", name),
        (b"\xc3\xa9", name),
        (b"", name),
    ]:
        yield f"encoding {text}", tags({b"bagit.txt": declared(encoding=text)}), answer
    octets = OF_0_97.replace(b"UTF-8", b"ISO-8859-1")
    yield "version 0.97 and another encoding", tags({b"bagit.txt": octets}), outside("encoding")


def names():
    """Each tag file that is read line by line has its name."""
    for name in [b"bag-info.txt", b"fetch.txt", *MANIFESTS, *TAG_MANIFESTS]:
        answer = not_complete(f"{name.decode()}:1: separator")
        yield f"a faulty line in {name}", tags({name: b"?"}), answer
    for name in MANIFESTS:
        answer = not_complete(*[f"{name.decode()}: unlisted: data/{file}" for file in ("a.txt", "e.txt")])
        yield f"an empty {name}", tags({name: b""}), answer
    for name in TAG_MANIFESTS:
        answer = not_complete(f"{name.decode()}: not listed: manifest-sha256.txt")
        yield f"an empty {name}", tags({name: b""}), answer


def told_names():
    """Each manifest is recognized by its name."""
    for name in MANIFESTS:
        files = empty({name: b"", b"tagmanifest-sha256.txt": b""})
        yield f"{name} not listed", files, not_complete(f"tagmanifest-sha256.txt: not listed: {name.decode()}")
        files = empty({name: b"", b"fetch.txt": b"http:x - data/z"})
        yield f"a path of fetch.txt not in {name}", files, not_complete(f"fetch.txt: not in {name.decode()}: data/z")
    for name, digits in zip(TAG_MANIFESTS, (32, 40, 64, 128)):
        files = empty({b"manifest-md5.txt": b"", name: b"0" * digits + b" k\n" + b"0" * digits + b" manifest-md5.txt"})
        answer = not_complete(f"{name.decode()}: missing: k", f"{name.decode()}: digest: manifest-md5.txt")
        yield f"a missing file of {name}", files, answer


def other_names():
    """Names are matched exactly, and only in the base directory."""
    for name, word in [
        (b"manifest-sha224.txt", "sha224"),
        (b"tagmanifest-sha224.txt", "sha224"),
        (b"manifest-sha3_256.txt", "sha3_256"),
        (b"tagmanifest-sha3_256.txt", "sha3_256"),
        (b"manifest-SHA256.txt", "SHA256"),
        (b"manifest-MD5.txt", "MD5"),
        (b"manifest-sha2567.txt", "sha2567"),
        (b"manifest-sha51.txt", "sha51"),
        (b"manifest-_.txt", "_"),
    ]:
        yield f"a file {name}", tags({name: b"?"}), outside(f"algorithm {word}")
    for name in [
        b"manifest-.txt",
        b"tagmanifest-.txt",
        b"manifest-sha-256.txt",
        b"manifest-sha256",
        b"manifest-sha256.txt.txt",
        b"manifest-sha256.TXT",
        b"Manifest-sha256.txt",
        b"manifest_sha256.txt",
        b"manifest-\xc3\xa9.txt",
        b"x/manifest-sha256.txt",
        b"manifest-x/sha256.txt",
        b"x/bagit.txt",
        b"Bagit.txt",
        b"bagit.txt.txt",
        b"baginfo.txt",
        b"notes.txt",
    ]:
        yield f"a file {name}, which has no meaning", tags({name: b"?"}), VALID
    for name in b"data/bagit.txt", b"data/manifest-md5.txt", b"data/fetch.txt":
        files = {name: b"", b"manifest-sha256.txt": MANIFEST + E_SHA256 + b"  " + name}
        yield f"a payload file {name}", tags(files), VALID


def manifests():
    other_tool = A_SHA256.upper() + b"\t*./data/a.txt\r\n" + E_SHA256 + b"  data/e.txt"
    yield "a manifest as other tools write it", with_manifest(other_tool), VALID
    for third, cause in [
        (E_SHA256 + b"  data/../k", "path"),
        (E_SHA256 + b"  data//k", "path"),
        (E_SHA256 + b"  data", "path"),
        (E_SHA256 + b"  data/%2e%2e/k", "path"),
        (E_SHA256 + b"  data/a%00", "path"),
        (E_SHA256 + b"  data/\xff", "not UTF-8"),
        (E_SHA256 + b"  k", "wrong place"),
        (A_SHA256 + b"  data/a.txt", "twice"),
        (A_SHA256[:32] + b"  data/k", "digest form"),
        (b"data/k", "separator"),
    ]:
        answer = not_complete(f"manifest-sha256.txt:3: {cause}")
        yield f"a manifest with the line {third}", with_manifest(MANIFEST + third), answer
    one = A_MD5 + b"  data/a.txt\n"
    answer = not_complete("manifest-md5.txt: unlisted: data/e.txt")
    yield "a second manifest that lists one file", tags({b"manifest-md5.txt": one}), answer
    yield "a second manifest", tags({b"manifest-md5.txt": BOTH_BY_MD5}), VALID
    answer = not_complete("manifest-md5.txt: unlisted: data/z", "manifest-sha256.txt: unlisted: data/z")
    yield "two manifests, and a file more", tags({b"manifest-md5.txt": BOTH_BY_MD5, b"data/z": b""}), answer
    swapped = E_MD5 + b"  data/a.txt\n" + A_MD5 + b"  data/e.txt\n"
    answer = complete("manifest-md5.txt: digest: data/a.txt", "manifest-md5.txt: digest: data/e.txt")
    yield "digests of other files in one of two manifests", tags({b"manifest-md5.txt": swapped}), answer
    files = {b"manifest-sha224.txt": b"", b"tagmanifest-blake2.txt": b"?"}
    yield "two unknown algorithms", tags(files), outside("algorithm sha224")


def digests():
    """Files whose lengths are around the sizes of blocks, by all four algorithms."""
    files = {b"data/%d" % length: (bytes(range(251)) * (length // 251 + 1))[:length] for length in BY_COREUTILS}
    for i, name in enumerate(MANIFESTS):
        lines = [digests[i] + b"  data/%d\n" % length for length, digests in BY_COREUTILS.items()]
        files[name] = b"".join(lines)
    yield "messages of 1 to 129 octets, and of a million", empty(files), VALID
    for name, published in PUBLISHED.items():
        lines = [digest + b"  data/%d\n" % place for place, digest in enumerate(published.values())]
        files = {b"data/%d" % place: message for place, message in enumerate(published)}
        yield f"the published digests by {name}", empty(
            {f"manifest-{name}.txt".encode(): b"".join(lines), **files}), VALID
    digits = [PUBLISHED[name][b"abc"] for name in PUBLISHED]
    swapped = {b"data/a": b"abc", **{name: digest[:-1] + b"0  data/a" for name, digest in zip(MANIFESTS, digits)}}
    yield "a last digit that is another", empty(swapped), complete(
        *[f"{name.decode()}: digest: data/a" for name in MANIFESTS])


def payloads():
    nothing = {b"bagit.txt": DECLARATION, b"manifest-sha256.txt": b""}
    yield "an empty bag without data/", nothing, not_complete("no data directory")
    yield "an empty bag with data/", empty(nothing), VALID
    both = not_complete("no data directory", "no payload manifest")
    yield "bagit.txt alone", {b"bagit.txt": DECLARATION}, both
    yield "data/ in another folder", {**nothing, b"other/data/": None}, not_complete("no data directory")
    yield "a folder without files", {}, not_complete("no bagit.txt")
    changed = complete("manifest-sha256.txt: digest: data/a.txt")
    yield "a changed octet", tags({b"data/a.txt": b"abd"}), changed
    lines = ["missing: data/e.txt", "unlisted: data/z", "digest: data/a.txt"]
    three = {b"data/a.txt": b"", b"data/e.txt": None, b"data/z": b"abc"}
    yield "a missing, an unlisted and a changed file", tags(three), not_complete(
        *[f"manifest-sha256.txt: {line}" for line in lines])
    files = {"data/100%\r\n\u00e9 \U0001f4e6\t%0A".encode(): b""}
    escaped = "data/100%25%0D%0A\u00e9 \U0001f4e6\t%250A"
    yield "a name that is printed with escapes", tags(files), not_complete(f"manifest-sha256.txt: unlisted: {escaped}")


def infos():
    form, repeated, wrong = [not_complete(f"bag-info.txt: Payload-Oxum {word}")
        for word in ("form", "repeated", "wrong")]
    for octets, answer in [
        (b"Payload-Oxum: 3.2", VALID),
        (MARK + b"Payload-Oxum: 3.2\n", VALID),
        (b"Payload-Oxum: 4.2", wrong),
        (b"payload-oxum: 3.1", wrong),
        (b"PAYLOAD-OXUM: 3.1", wrong),
        (b"Payload-Oxum:", form),
        (b"Payload-Oxum: 3.2\nPayload-Oxum: 3.2", repeated),
        (b"Payload-Oxums: 9.9\nNote: Payload-Oxum: 8.8\n", VALID),
        (b"Payload-Oxum-2: 9.9\nPayload_Oxum: 9.9\nOxum: 9.9\n", VALID),
    ]:
        yield f"bag-info.txt: {octets}", tags({b"bag-info.txt": octets}), answer


def oxums():
    form, wrong = [not_complete(f"bag-info.txt: Payload-Oxum {word}") for word in ("form", "wrong")]
    for text, answer in [
        (b"18446744073709551615.0", wrong),
        (b"18446744073709551616.0", form),
        (b"0.18446744073709551616", form),
        (b"279164409832.1198", wrong),
        (b"003.02", VALID),
        (b"007.02", wrong),
        (b" 3.2\t", VALID),
        (b"\t 3.2 \t", VALID),
        (b"3.", form),
        (b".2", form),
        (b"+3.2", form),
        (b"\xd9\xa3.2", form),
        (b"3.2.1", form),
        (b"3 .2", form),
        (b"3. 2", form),
        (b"3.2 1", form),
        (b"3", form),
        (b"", form),
        (b" ", form),
    ]:
        yield f"Payload-Oxum: {text}", tags({b"bag-info.txt": b"Payload-Oxum: " + text}), answer


def info_lines():
    """The first faulty line and its first cause; infos_0_97 has more."""
    for octets, line, cause in [
        (b" x", 1, "nothing to continue"),
        (b"\n\tx: y\n", 2, "nothing to continue"),
        (b"a b", 1, "separator"),
        (b"\n \t\nA:\tb: c \r\n\r d\re", 6, "separator"),
        (b"A: b\n" + MARK + b"C: d\n", 2, "label"),
        (MARK + MARK + b"C: d\n", 1, "label"),
        (b"A: b\n\xff\n c d", 2, "not UTF-8"),
        (b" \xff", 1, "not UTF-8"),
    ]:
        yield f"bag-info.txt: {octets}", tags({b"bag-info.txt": octets}), not_complete(f"bag-info.txt:{line}: {cause}")


def tag_manifests():
    listed = MANIFEST_SHA256 + b"  manifest-sha256.txt\n"
    place = not_complete("tagmanifest-sha256.txt:2: wrong place")
    for octets, answer in [
        (b"", not_complete("tagmanifest-sha256.txt: not listed: manifest-sha256.txt")),
        (E_SHA256 + b"  data/a.txt\n", not_complete("tagmanifest-sha256.txt:1: wrong place")),
        (E_SHA256 + b"  manifest-sha256.txt\n", complete("tagmanifest-sha256.txt: digest: manifest-sha256.txt")),
        (listed + DECLARATION_SHA256 + b"  bagit.txt\n", VALID),
        *[(listed + E_SHA256 + b"  " + name, place) for name in (
            b"tagmanifest-md5.txt", b"tagmanifest-sha224.txt", b"tagmanifest-_.txt")],
        *[(listed + E_SHA256 + b"  " + name, not_complete(f"tagmanifest-sha256.txt: missing: {name.decode()}"))
            for name in (
            b"note.txt", b"tagmanifest-.txt", b"tagmanifest-sha-1.txt", b"manifest-md5.txt", b"x/tagmanifest-md5.txt",
            b"tagmanifest-md5.txt/x")],
    ]:
        yield f"tagmanifest-sha256.txt: {octets}", tags({b"tagmanifest-sha256.txt": octets}), answer
    odd = {b"*a": b"./*a", b" b": b"./ b", b"\tc": b"./\tc", b"**": b"./**", b"d\n%": b"d%0A%25", b".e/*": b".e/*",
        b"x ": b"x "}
    lines = b"".join(E_SHA256 + b"  " + spelling + b"\n" for spelling in odd.values())
    files = {**dict.fromkeys(odd, b""), b"tagmanifest-sha256.txt": listed + lines}
    yield "tag files with odd names, as they are written", tags(files), VALID
    listed = MANIFEST_MD5 + b" manifest-sha256.txt\n"
    form = not_complete("tagmanifest-md5.txt:2: digest form")
    for checksum, answer in [
        (DECLARATION_MD5, VALID),
        (DECLARATION_MD5.upper(), VALID),
        (DECLARATION_MD5[:31], form),
        (DECLARATION_MD5[:31] + b"g", form),
        (DECLARATION_MD5 + b"00000000", form),
    ]:
        yield f"the digits {checksum} of MD5", tags(
            {b"tagmanifest-md5.txt": listed + checksum + b" bagit.txt\n"}), answer


def fetches():
    a, z, y = b"http://example.org/a ", b"http://example.org/z - data/z\n", b"http://example.org/y - data/y\n"
    length_1 = not_complete("fetch.txt:1: length: data/a.txt")
    for octets, answer in [
        (z, not_complete("fetch.txt: not in manifest-sha256.txt: data/z")),
        (a + b"4 data/a.txt\n", length_1),
        (b"\n" + a + b"3 data/a.txt\n" + a + b"2 data/a.txt\n", not_complete("fetch.txt:3: length: data/a.txt")),
        (a + b"3 data/a.txt\nhttp://example.org/e - data/e.txt\n", VALID),
        (a + b"0 data/e.txt", VALID),
        (a + b"000 data/e.txt", VALID),
        (a + b"003 data/a.txt", VALID),
        (a + b"7 data/a.txt", length_1),
        (a + b"18446744073709551615 data/a.txt", length_1),
        (a + b"0018446744073709551615 data/a.txt", length_1),
    ]:
        yield f"fetch.txt: {octets}", tags({b"fetch.txt": octets}), answer
    names = ["manifest-md5.txt: data/y", "manifest-md5.txt: data/z", "manifest-sha256.txt: data/y",
        "manifest-sha256.txt: data/z"]
    files = {b"manifest-md5.txt": BOTH_BY_MD5, b"fetch.txt": z + y + y}
    yield "faults of fetch.txt", tags(files), not_complete(*[f"fetch.txt: not in {name}" for name in names])


def fetch_lines():
    """A faulty line and its first cause."""
    for octets, cause in [
        (b"1http:x - data/a", "url"),
        (b"http: - data/a", "url"),
        (b" http:x - data/a", "url"),
        (b"http:x\x01 - data/a", "url"),
        (b"http:x\x7f - data/a", "url"),
        (b":x - data/a", "url"),
        (b"h_p:x - data/a", "url"),
        (b"\xc3\xa9:x - data/a", "url"),
        (b"example.org/a - data/a", "url"),
        (b"http:x -1 data/a", "length"),
        (b"http:x -- data/a", "length"),
        (b"http:x +7 data/a", "length"),
        (b"http:x \xd9\xa7 data/a", "length"),
        (b"http:x 18446744073709551616 data/a", "length"),
        (b"http:x 99999999999999999999 data/a", "length"),
        (b"http:x x" + b"0" * 4998 + b"9 data/a", "length"),
        (b"http:x", "separator"),
        (b"http:x ", "separator"),
        (b"http:x 5", "separator"),
        (b"http:x 5 ", "path"),
        (b"http:x 5 a", "wrong place"),
        (b"http:x 5 data2/a", "wrong place"),
        (b"http:x 5 *data/a", "wrong place"),
        (b"http:x 5 ./data/a", "path"),
        (b"http:x 5 data", "path"),
        (b"http:x 5 data/%41", "path"),
        (b"\xff", "not UTF-8"),
        (b"http:x 5 data/\xff", "not UTF-8"),
    ]:
        yield f"fetch.txt: {octets[:60]}", tags({b"fetch.txt": octets}), not_complete(f"fetch.txt:1: {cause}")
    octets = b"http:x 5 data/a\n\nhttp:x 5 a\nhttp:x"
    yield f"fetch.txt: {octets}", tags({b"fetch.txt": octets}), not_complete("fetch.txt:3: wrong place")


def manifests_0_97():
    one, other = A_MD5 + b"  data/a.txt\n", E_SHA256 + b"  data/e.txt\n"
    first = "manifest-md5.txt"
    for name, files, answer in [
        ("an empty manifest", {b"manifest-md5.txt": b""}, VALID),
        ("a second manifest that lists one file", {b"manifest-md5.txt": one}, VALID),
        ("each manifest lists one file", {b"manifest-md5.txt": one, b"manifest-sha256.txt": other}, VALID),
        ("a file that two list", {b"manifest-md5.txt": BOTH_BY_MD5, b"manifest-sha256.txt": other}, VALID),
        ("a second manifest, and a file more", {b"manifest-md5.txt": BOTH_BY_MD5, b"data/z": b""},
         not_complete(f"{first}: unlisted: data/z")),
        ("two empty manifests", {b"manifest-md5.txt": b"", b"manifest-sha256.txt": b""},
         not_complete(f"{first}: unlisted: data/a.txt", f"{first}: unlisted: data/e.txt")),
        ("one wrong digest of two", {b"manifest-md5.txt": E_MD5 + b"  data/a.txt\n"},
            complete(f"{first}: digest: data/a.txt")),
        ("the only digest is wrong", {b"manifest-md5.txt": E_MD5 + b"  data/a.txt\n", b"manifest-sha256.txt": other},
         complete(f"{first}: digest: data/a.txt")),
        ("a missing file that one of two lists", {b"manifest-md5.txt": E_MD5 + b"  data/z\n"},
         not_complete(f"{first}: missing: data/z")),
        ("both digests are wrong", {b"manifest-md5.txt": E_MD5 + b"  data/a.txt\n",
                                    b"manifest-sha256.txt": E_SHA256 + b"  data/a.txt\n" + other},
         complete(f"{first}: digest: data/a.txt", "manifest-sha256.txt: digest: data/a.txt")),
        ("a missing file that two list", {b"manifest-md5.txt": BOTH_BY_MD5, b"data/a.txt": None},
         not_complete(f"{first}: missing: data/a.txt", "manifest-sha256.txt: missing: data/a.txt")),
        ("an unlisted file, which counts for the Oxum", {b"data/z": b"", b"bag-info.txt": b"Payload-Oxum: 3.3"},
         not_complete("manifest-sha256.txt: unlisted: data/z")),
        ("stars and dots", {b"manifest-md5.txt": b"",
            b"manifest-sha256.txt": A_SHA256.upper() + b"\t*./data/a.txt\r\n" + other},
         VALID),
        ("a line more", {b"manifest-md5.txt": one + b"?"}, not_complete(f"{first}:2: separator")),
        ("an unknown algorithm", {b"manifest-sha224.txt": b""}, outside("algorithm sha224")),
        ("no manifest", {b"manifest-sha256.txt": None}, not_complete("no payload manifest")),
    ]:
        yield f"version 0.97: {name}", tags_0_97(files), answer


def infos_0_97():
    form, repeated, wrong = [not_complete(f"bag-info.txt: Payload-Oxum {word}")
        for word in ("form", "repeated", "wrong")]
    causes = "separator", "label", "nothing to continue"
    separator, label, nothing = [not_complete(f"bag-info.txt:1: {cause}") for cause in causes]
    label_2 = not_complete("bag-info.txt:2: label")
    for octets, answer, before in [
        (b"L: v", VALID, VALID),
        (b"L : v", VALID, label),
        (b"L\t:v", VALID, separator),
        (b"L:v", VALID, separator),
        (b"L: \tv", VALID, VALID),
        (b"L \t :\n v\n\tw", VALID, label),
        (b"a b \t:\xc2\xa0c", VALID, separator),
        (b"L::", VALID, separator),
        (b"L\xc2\xa0: v", VALID, VALID),
        (b":v", label, separator),
        (b": v", label, label),
        (b":", label, label),
        (b": L : v", label, label),
        (MARK + MARK + b" : v", label, label),
        (b" : v", nothing, nothing),
        (b"L", separator, separator),
        (b"L v", separator, separator),
        (b"L:v\n: v\n", label_2, separator),
        (b"Payload-Oxum : 3.2", VALID, label),
        (b"payload-oxum:3.2 \t", VALID, separator),
        (b"Payload-Oxum\t:\t 4.2", wrong, label),
        (b"Payload-Oxum:3", form, separator),
        (b"Payload-Oxum:\n 3.2", form, form),
        (b"Payload-Oxum: 3.2 : x", form, form),
        (b"x: Payload-Oxum: 8.8", VALID, VALID),
        (b"Payload-Oxum : 3.2\nPayload-Oxum:3.2", repeated, label),
        (b"Payload-Oxum\xc2\xa0: 8.8\nPayload- Oxum: 8.8", VALID, VALID),
    ]:
        yield f"version 0.97: bag-info.txt: {octets}", tags_0_97({b"bag-info.txt": octets}), answer
        yield f"version 1.0: bag-info.txt: {octets}", tags({b"bag-info.txt": octets}), before


def paths_0_97():
    """An empty payload file, the spelling of its path in the manifest, and the answers for versions 0.97 and 1.0."""
    path = not_complete("manifest-sha256.txt:3: path")

    def other(spelled, printed):
        return not_complete(f"manifest-sha256.txt: missing: data/{spelled}",
            f"manifest-sha256.txt: unlisted: data/{printed}")

    for name, spelling, answer, before in [
        (b"%", b"%", VALID, path),
        (b"%0", b"%0", VALID, path),
        (b"%0g", b"%0g", VALID, path),
        (b"%41", b"%41", VALID, path),
        (b"%25", b"%25", VALID, other("%25", "%2525")),
        (b"%250A", b"%250A", VALID, other("%250A", "%25250A")),
        (b"\n", b"%0A", VALID, VALID),
        (b"\n", b"%0a", VALID, VALID),
        (b"\r", b"%0D", VALID, VALID),
        (b"\r", b"%0d", VALID, VALID),
        (b"%\n", b"%%0a", VALID, path),
        (b"%0\r", b"%0%0d", VALID, path),
        (b"%", b"%25", other("%2525", "%25"), VALID),
        (b"%0A", b"%0A", other("%0A", "%250A"), other("%0A", "%250A")),
        (b"%0d", b"%250d", other("%25250d", "%250d"), VALID),
        (b"k", b"../%25", path, path),
        (b"k", b"%0a/", path, path),
    ]:
        files = {b"data/" + name: b"", b"manifest-sha256.txt": MANIFEST + E_SHA256 + b"  data/" + spelling}
        yield f"version 0.97: {name}, spelled {spelling}", tags_0_97(files), answer
        yield f"version 1.0: {name}, spelled {spelling}", tags(files), before


def repeats_0_97():
    twice = not_complete("manifest-sha256.txt:4: twice")
    for one, other, answer in [(b"%0A", b"%0a", twice), (b"%25", b"%25", twice), (b"%", b"%25", VALID)]:
        lines = E_SHA256 + b"  data/" + one + b"\n" + E_SHA256 + b"  data/" + other
        files = {b"manifest-sha256.txt": MANIFEST + lines, b"data/%": b"", b"data/%25": b""}
        yield f"version 0.97: a manifest with {one} and {other}", tags_0_97(files), answer


def tag_manifests_0_97():
    listed = MANIFEST_SHA256 + b"  manifest-sha256.txt\n"
    note = E_SHA256 + b"  50%25\n"
    name = b"tagmanifest-sha256.txt"
    for title, files, answer in [
        ("a tag manifest", {name: listed}, VALID),
        ("an empty one", {name: b""}, not_complete("tagmanifest-sha256.txt: not listed: manifest-sha256.txt")),
        ("one that lists one of two", {name: listed, b"manifest-md5.txt": b""},
         not_complete("tagmanifest-sha256.txt: not listed: manifest-md5.txt")),
        ("a second one, which lists none", {name: listed, b"tagmanifest-md5.txt": b""},
         not_complete("tagmanifest-md5.txt: not listed: manifest-sha256.txt")),
        ("a path with a percent sign", {name: listed + note, b"50%25": b""}, VALID),
        ("a path without one", {name: listed + note, b"50%": b""},
            not_complete("tagmanifest-sha256.txt: missing: 50%2525")),
        ("a wrong digest", {name: E_SHA256 + b"  manifest-sha256.txt"},
         complete("tagmanifest-sha256.txt: digest: manifest-sha256.txt")),
        ("a payload file", {name: listed + E_SHA256 + b"  data/e.txt"},
            not_complete("tagmanifest-sha256.txt:2: wrong place")),
    ]:
        yield f"version 0.97: {title}", tags_0_97(files), answer


def fetches_0_97():
    a, z, y = b"http://example.org/a ", b"http://example.org/z - data/z\n", b"http://example.org/y - data/y\n"
    half = {b"manifest-md5.txt": A_MD5 + b"  data/a.txt\n", b"manifest-sha256.txt": E_SHA256 + b"  data/e.txt\n"}
    two = {b"manifest-md5.txt": BOTH_BY_MD5}
    for octets, files, answer in [
        (z, {}, not_complete("fetch.txt: not in manifest-sha256.txt: data/z")),
        (z + y + y, two, not_complete("fetch.txt: not in manifest-md5.txt: data/y",
            "fetch.txt: not in manifest-md5.txt: data/z")),
        (z, {**two, b"data/z": b""},
         not_complete("manifest-md5.txt: unlisted: data/z", "fetch.txt: not in manifest-md5.txt: data/z")),
        (a + b"3 data/a.txt\nhttp://example.org/e - data/e.txt\n", half, VALID),
        (a + b"4 data/a.txt\n" + a + b"3 data/e.txt\n", half,
         not_complete("fetch.txt:1: length: data/a.txt", "fetch.txt:2: length: data/e.txt")),
        (a + b"- data/%25\n", {}, not_complete("fetch.txt: not in manifest-sha256.txt: data/%2525")),
        (a + b"- data/%0a\n", {}, not_complete("fetch.txt: not in manifest-sha256.txt: data/%0A")),
        (a + b"- data%25\n", {}, not_complete("fetch.txt:1: wrong place")),
        (a + b"- data/../%\n", {}, not_complete("fetch.txt:1: path")),
    ]:
        yield f"version 0.97: fetch.txt: {octets}", tags_0_97({**files, b"fetch.txt": octets}), answer


def several_tag_files():
    both = {b"bag-info.txt": b"x\n", b"fetch.txt": b"x\n"}
    yield "two files with a faulty line", tags(both), not_complete(
        "bag-info.txt:1: separator", "fetch.txt:1: separator")
    files = {b"bag-info.txt": b"Payload-Oxum: 9.9\n x\n:\n", b"tagmanifest-md5.txt": b"?", b"data/z": b""}
    answer = not_complete("bag-info.txt:3: label", "tagmanifest-md5.txt:1: separator")
    yield "faulty lines, which hide the faults of the files", tags(files), answer
    # Of each file the first faulty line is told, and the files stand in the order of their names.
    files = {b"tagmanifest-md5.txt": b"?", b"manifest-sha512.txt": b"\n" * 8 + b"?\n?\n", b"fetch.txt": b"\n?\n?",
             b"bag-info.txt": b"\n\n?\n?", b"manifest-md5.txt": b"?"}
    lines = ["bag-info.txt:3", "fetch.txt:2", "manifest-md5.txt:1", "manifest-sha512.txt:9", "tagmanifest-md5.txt:1"]
    yield "five files with faulty lines", tags(files), not_complete(*[f"{line}: separator" for line in lines])
    gone = b"0" * 32 + b"  data/b\n" + b"0" * 32 + b"  data/B\n"
    files = empty({b"manifest-md5.txt": gone,
                   b"manifest-sha1.txt": b"".join(b"0" * 40 + line[32:] for line in gone.splitlines(True)),
                   b"tagmanifest-md5.txt": b"0" * 32 + b" manifest-md5.txt\n" + b"0" * 32 + b" manifest-sha1.txt\n"
                   + b"0" * 32 + b" bag-info.txt"})
    lines = [f"manifest-{alg}.txt: missing: data/{name}" for alg in ("md5", "sha1") for name in "Bb"]
    digests = [f"tagmanifest-md5.txt: digest: manifest-{alg}.txt" for alg in ("md5", "sha1")]
    yield "missing files, by manifest and path", files, not_complete(*lines,
        "tagmanifest-md5.txt: missing: bag-info.txt", *digests)
    files = dict.fromkeys([b"manifest-.txt", b"x/bagit.txt", b"manifest-sha 256.txt", b"readme", b"DATA", b"data.txt",
        b"data2/a"], b"")
    yield "files without a meaning", tags(files), VALID


def limits():
    many, large = (["bag: too many"], 3), (["bag: tag too large"], 3)
    long, huge = b"\n" * 100_001, b"x" * 16_777_217
    for name in (b"fetch.txt", b"tagmanifest-md5.txt", b"manifest-sha512.txt"):
        yield f"100,001 lines in {name}", tags({name: long}), many
    yield "100,001 lines in bag-info.txt", tags({b"bag-info.txt": long}), VALID
    yield "a bagit.txt of 16,777,216 octets", tags({b"bagit.txt": huge[1:]}), not_complete("bagit.txt: line count")
    yield "a bagit.txt of 16,777,217 octets", tags({b"bagit.txt": huge}), large
    yield "limits that are met by name, first the size", tags({b"bag-info.txt": huge, b"fetch.txt": long}), large
    yield "limits that are met by name, first the lines", tags({b"fetch.txt": long, b"tagmanifest-md5.txt": huge}), many


FAMILIES = (declarations, versions, encodings, names, told_names, other_names, manifests, digests, payloads, infos,
            oxums,
            info_lines, tag_manifests, fetches, fetch_lines, several_tag_files, limits, manifests_0_97, infos_0_97,
            paths_0_97, repeats_0_97, tag_manifests_0_97, fetches_0_97)

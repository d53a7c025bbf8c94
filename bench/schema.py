#!/usr/bin/env python3
"""Times `nif schema` on hostile schema texts of growing size, beside `cat` on the same texts.

    bench/schema.py [PROGRAM]        PROGRAM: crates/nif/out/nif, as `rt run` in crates/nif builds it

For each shape it makes texts of 0.5, 1, 2 and 4 MiB and prints the best of three runs, and how the time grew when the
size doubled: about 2 is linear. Different paths of two names may grow by 2.8. Exit status 0 (listed) and 3 (refused)
are both fine. It is no part of the tests.
"""
import itertools, os, resource, subprocess, sys, tempfile, time

PLAIN = """ <basic name="ulittle32"/> <basic name="uint"/> <basic name="HeaderString"/> <basic name="FileVersion"/>
 <struct name="Header"><field name="Header String" type="HeaderString"/><field name="Version" type="FileVersion"/>
 <field name="Num Blocks" type="ulittle32"/></struct><struct name="Footer"/>
"""


def filled(size, item, head="", tail=""):
    """A root with `plain`'s declarations, then head, as many items as fit, and tail; `item` takes the place of the item."""
    parts, length = ["<niftoolsxml>\n", PLAIN, head], 300 + len(PLAIN) + len(head) + len(tail)
    place = 0
    while True:
        text = item(place)
        if length + len(text) > size:
            break
        parts.append(text)
        length += len(text)
        place += 1
    return "".join(parts) + tail + "</niftoolsxml>\n"


def chain(size):
    return filled(size, lambda i: '<niobject name="B%d"%s/>' % (i, ' inherit="B%d"' % (i - 1) if i else ""))


def chain_backwards(size):
    return filled(size, lambda i: '<niobject name="B%d" inherit="B%d"/>' % (i, i + 1))


def loop_of_parents(size):
    text = filled(size - 60, lambda i: '<niobject name="B%d" inherit="B%d"/>' % (i, i + 1))
    last = text.count("<niobject")
    return text.replace("</niftoolsxml>", '<niobject name="B%d" inherit="B0"/></niftoolsxml>' % last)


def chain_with_fields(size):
    return filled(size, lambda i: '<niobject name="B%d"%s><field name="F%d" type="uint" cond="F0"/></niobject>'
                  % (i, ' inherit="B%d"' % (i - 1) if i else "", i))


def conditions_on_the_first(size):
    return filled(size, lambda i: '<field name="F%d" type="uint"%s/>' % (i, ' cond="F0"' if i else ""), '<struct name="S">', "</struct>")


def one_name(size):
    return filled(size, lambda i: '<field name="F" type="uint"%s/>' % (' cond="F"' if i else ""), '<struct name="S">', "</struct>")


def paths_through_one_name(size):
    head = '<struct name="T"><field name="N" type="uint"/></struct><struct name="S">'
    return filled(size, lambda i: '<field name="F" type="T"%s/>' % (' cond="F\\N"' if i else ""), head, "</struct>")


def paths_through_many_types(size):
    """One name of many types, and as many paths of one text through it: the types are looked at once."""
    count = size // 135
    structs = "".join('<struct name="T%d"><field name="N" type="uint"/></struct>' % i for i in range(count))
    fields = "".join('<field name="F" type="T%d"/>' % i for i in range(count))
    paths = "".join('<field name="G" type="uint" cond="F\\N"/>' for i in range(count))
    return "<niftoolsxml>" + PLAIN + structs + '<struct name="S">' + fields + paths + "</struct></niftoolsxml>"


def types_and_paths_in_turn(size):
    """A path stands behind each field of another type, so each looks at one type."""
    count = size // 135
    structs = "".join('<struct name="T%d"><field name="N" type="uint"/></struct>' % i for i in range(count))
    fields = "".join('<field name="F" type="T%d"/><field name="G" type="uint" cond="F\\N"/>' % i for i in range(count))
    return "<niftoolsxml>" + PLAIN + structs + '<struct name="S">' + fields + "</struct></niftoolsxml>"


def many_types(count, last="N"):
    """So many structs with a field `N`, but the last one's has this name; and fields `F` of these types."""
    structs = "".join('<struct name="T%d"><field name="%s" type="uint"/></struct>' % (i, "N" if i + 1 < count else last) for i in range(count))
    return structs, ['<field name="F" type="T%d"/>' % i for i in range(count)]


def paths_with_a_reason_in_children(size):
    """The last of many types lacks the name. The path of the first child finds that out, and those of the others know it."""
    count = size // 190
    structs, fields = many_types(count, "M")
    children = "".join('<niobject name="B%d" inherit="A"><field name="G" type="uint" cond="F\\N"/></niobject>' % i for i in range(count))
    return "<niftoolsxml>" + PLAIN + structs + '<niobject name="A">' + "".join(fields) + "</niobject>" + children + "</niftoolsxml>"


def types_and_paths_in_children(size):
    """Each child puts another type behind those of its parent, which is taken off again. A type of the parent has the name,
    but for no number, so that each path gives a reason."""
    count = size // 190
    structs, fields = many_types(count)
    odd = '<basic name="float"/><struct name="Odd"><field name="N" type="float"/></struct>'
    above = "".join(fields[:count // 2]) + '<field name="F" type="Odd"/>'
    children = "".join('<niobject name="B%d" inherit="A">%s<field name="G" type="uint" cond="F\\N"/></niobject>'
                       % (i, fields[i]) for i in range(count // 2, count))
    return "<niftoolsxml>" + PLAIN + structs + odd + '<niobject name="A">' + above + "</niobject>" + children + "</niftoolsxml>"


def different_rests_of_two_names(size):
    """So many types with as many names each, and as many first names of these types as the text has room for: each path has
    another pair of names, and looks at all types. The time grows as the text times its square root."""
    count = int((size / 120) ** 0.5)
    structs = "".join('<struct name="T%d">%s</struct>' % (i, "".join('<field name="N%d" type="uint"/>' % k for k in range(count))) for i in range(count))
    fields = "".join('<field name="F%d" type="T%d"/>' % (k, i) for k in range(count) for i in range(count))
    paths = "".join('<field name="G" type="uint" cond="F%d\\N%d"/>' % (k, i) for k in range(count) for i in range(count))
    return "<niftoolsxml>" + PLAIN + structs + '<struct name="S">' + fields + paths + "</struct></niftoolsxml>"


def many_first_names_of_one_type(size):
    """Paths of three names, each with a first name of its own, whose one type has a name of as many types."""
    count = size // 200
    inner = "".join('<struct name="U%d"><field name="c" type="uint"/></struct>' % i for i in range(count))
    middle = '<struct name="T">' + "".join('<field name="b" type="U%d"/>' % i for i in range(count)) + "</struct>"
    firsts = "".join('<field name="a%d" type="T"/>' % i for i in range(count))
    paths = "".join('<field name="x" type="uint" cond="a%d\\b\\c"/>' % i for i in range(count))
    return "<niftoolsxml>" + PLAIN + inner + middle + '<struct name="S">' + firsts + paths + "</struct></niftoolsxml>"


def many_rests_through_one_inner_type(size):
    """Paths of three names, each with a last name of its own, behind a first name of as many types that lead to one."""
    count = size // 190
    inner = '<struct name="U">' + "".join('<field name="c%d" type="uint"/>' % i for i in range(count)) + "</struct>"
    middle = "".join('<struct name="T%d"><field name="b" type="U"/></struct>' % i for i in range(count))
    firsts = "".join('<field name="a" type="T%d"/>' % i for i in range(count))
    paths = "".join('<field name="x" type="uint" cond="a\\b\\c%d"/>' % i for i in range(count))
    return "<niftoolsxml>" + PLAIN + inner + middle + '<struct name="S">' + firsts + paths + "</struct></niftoolsxml>"


def long_paths(size):
    head = '<struct name="V"><field name="V" type="V"/></struct><struct name="S"><field name="V" type="V"/>'
    return filled(size, lambda i: '<field name="F" type="uint" cond="%s"/>' % "\\".join(["V"] * 1900), head, "</struct>")


def ring(size):
    return filled(size - 60, lambda i: '<struct name="S%d"><field name="F" type="S%d"/></struct>' % (i, i + 1))


def uses_of_one_closed(size):
    return filled(size, lambda i: '<struct name="S%d"><field name="F" type="Odd"/></struct>' % i,
                  '<struct name="Odd"><field name="F" type="Nowhere"/></struct>')


def children_of_one(size):
    return filled(size, lambda i: '<niobject name="B%d" inherit="A"><field name="G" type="uint" cond="F"/></niobject>' % i,
                  '<niobject name="A"><field name="F" type="uint"/></niobject>')


def attributes(size):
    return "<niftoolsxml " + " ".join("a%d=''" % i for i in range((size - 30) // 13)) + "/>"


def references(size):
    return "<niftoolsxml a='" + "&amp;" * ((size - 30) // 5) + "'/>"


def deep(size):
    one = "<a>" * 62 + "</a>" * 62
    return "<niftoolsxml>" + one * ((size - 40) // len(one)) + "</niftoolsxml>"


def text_and_comments(size):
    return "<niftoolsxml>" + "x<!-- - -->" * ((size - 40) // 11) + "</niftoolsxml>"


def unfinished(size):
    return "<niftoolsxml>" + "<a/>" * ((size - 40) // 4)


def tokens(size):
    head = '<token name="t" attrs="cond">' + "".join('<t token="#T%d#" string="F0"/>' % i for i in range(20)) + '</token><struct name="S">'
    return filled(size, lambda i: '<field name="F%d" type="uint"%s/>' % (i, ' cond="#T%d# == 1"' % (i % 20) if i else ""), head, "</struct>")


def tokens_and_fields(size, token, field):
    """Half of the text are tokens of `name` and `type`, and half are fields; `field` takes its place and the tokens' number."""
    half = (size - 600) // 2
    tokens, fields = [], []
    for parts, item in (tokens, token), (fields, lambda i: field(i, len(tokens))):
        length = 0
        while length < half:
            parts.append(item(len(parts)))
            length += len(parts[-1])
    return ("<niftoolsxml>" + PLAIN + '<token name="t" attrs="name type">' + "".join(tokens) + '</token><struct name="S">'
            + "".join(fields) + "</struct></niftoolsxml>")


def tokens_that_do_not_occur(size):
    return tokens_and_fields(size, lambda i: '<t token="#T%d#" string="x"/>' % i, lambda i, n: '<field name="F%d" type="uint"/>' % i)


def tokens_like_the_names(size):
    long = "#" + "T" * 20
    return tokens_and_fields(size, lambda i: '<t token="%s%d#" string="x"/>' % (long, i), lambda i, n: '<field name="%s%d" type="uint"/>' % (long, i))


def one_token_a_field(size):
    return tokens_and_fields(size, lambda i: '<t token="#T%d#" string="x"/>' % i, lambda i, n: '<field name="a#T%d#b" type="uint"/>' % (i * 7919 % n))


def one_token_many_times(size):
    return tokens_and_fields(size, lambda i: '<t token="%d,%d" string=""/>' % (i % 1000, i // 1000), lambda i, n: '<field name="F%s" type="uint"/>' % ("1,7" * 100))


MASK = (1 << 64) - 1
MULTIPLIER = 0x9E3779B97F4A7C15


def folded(a, b):
    product = a * b
    return product & MASK ^ product >> 64


def hashed(state, byte):
    return folded(state ^ (byte | byte << 8 | byte << 16), MULTIPLIER ^ 2)


def names_of_near_hashes(size):
    """Names for which a hash of a fixed seed, that of the kit, has the same last eleven bits: a table that goes by it has
    them all in one place. There is one for each 768 bytes of the size, and nothing else."""
    letters = b"abcdefghijklmnopqrstuvwxyzABCDEFGHIJKLMNOPQRSTUVWXYZ0123456789"
    names = []
    for front in itertools.product(letters, repeat=5):
        state = folded(0x243F6A8885A308D3 ^ 6, MULTIPLIER ^ 16)
        for byte in front:
            state = hashed(state, byte)
        for last in letters:
            value = hashed(state, last)
            if (value ^ value >> 32) & 2047 == 0:
                names.append((bytes(front) + bytes([last])).decode())
        if len(names) >= size // 768:
            break
    return "<niftoolsxml>" + PLAIN + "".join('<struct name="%s"/>' % name for name in names[:size // 768]) + "</niftoolsxml>"


SHAPES = [chain, chain_backwards, loop_of_parents, chain_with_fields, conditions_on_the_first, one_name, paths_through_one_name,
          paths_through_many_types, types_and_paths_in_turn,
          paths_with_a_reason_in_children, types_and_paths_in_children, different_rests_of_two_names,
          many_first_names_of_one_type, many_rests_through_one_inner_type, long_paths, ring, uses_of_one_closed, children_of_one,
          attributes, references, deep, text_and_comments, unfinished, tokens,
          tokens_that_do_not_occur, tokens_like_the_names, one_token_a_field, one_token_many_times, names_of_near_hashes]


def best(words, runs=3):
    seconds = []
    for _ in range(runs):
        begin = time.perf_counter()
        status = subprocess.run(words, stdout=subprocess.DEVNULL).returncode
        seconds.append(time.perf_counter() - begin)
        if status not in (0, 3):
            sys.exit("%s ended with %s" % (words, status))
    return min(seconds)


def main():
    program = os.path.abspath(sys.argv[1] if len(sys.argv) > 1 else "crates/nif/out/nif")
    sizes = [1 << 19, 1 << 20, 1 << 21, 1 << 22]
    print("%-34s" % "shape" + "".join("%9s MiB" % (s / (1 << 20)) for s in sizes) + "    growth    cat")
    with tempfile.TemporaryDirectory() as folder:
        for shape in SHAPES:
            seconds, yardstick = [], 0.0
            for size in sizes:
                path = os.path.join(folder, "s")
                with open(path, "w") as f:
                    f.write(shape(size))
                seconds.append(best([program, "schema", path]))
                yardstick = best(["cat", path])
            growth = " ".join("%.1f" % (b / a) for a, b in zip(seconds, seconds[1:]))
            print("%-34s" % shape.__name__ + "".join("%13.3f" % s for s in seconds) + "    " + growth + "  %.3f" % yardstick)
    print("most memory held by a run: %d kB" % resource.getrusage(resource.RUSAGE_CHILDREN).ru_maxrss)


main()

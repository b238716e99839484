#!/usr/bin/python3
"""Whether pages are of Prometheus' text form: metrics.py URL.. Each is read by the parser of Debian's python3-prometheus-client, where it is there, and by
the grammar of the form here; a page has some numbers, each once, each with its help and its type, and counters end in _total."""
import re
import sys
import urllib.request

NAME = r"[a-zA-Z_:][a-zA-Z0-9_:]*"
SAMPLE = re.compile(rf'({NAME})(?:\{{(?:[a-zA-Z_]\w*="(?:[^"\\\n]|\\["\\n])*")(?:,[a-zA-Z_]\w*="(?:[^"\\\n]|\\["\\n])*")*\}})? (\d+)')


def read(text):
    assert text.endswith("\n"), "the last line has no end"
    helped, kinds, values = set(), {}, {}
    for line in text[:-1].split("\n"):
        if found := re.fullmatch(rf"# HELP ({NAME}) (\S.*\.)", line):
            assert found[1] not in helped, line
            helped.add(found[1])
        elif found := re.fullmatch(rf"# TYPE ({NAME}) (counter|gauge)", line):
            assert found[1] in helped and found[1] not in kinds, line
            kinds[found[1]] = found[2]
        else:
            found = SAMPLE.fullmatch(line)
            assert found and found[1] in kinds and found[1] not in values, line
            values[found[1]] = int(found[2])
    assert helped == kinds.keys() == values.keys() and values
    assert all((kind == "counter") == name.endswith("_total") for name, kind in kinds.items())
    return values


def also(text, values):
    try:
        from prometheus_client.parser import text_string_to_metric_families as families
    except ImportError:
        return False
    read = {sample.name: sample.value for family in families(text) for sample in family.samples}
    assert read == {name: float(value) for name, value in values.items()}
    return True


for url in sys.argv[1:]:
    with urllib.request.urlopen(url, timeout=5) as page:
        assert page.headers["Content-Type"].startswith("text/plain")
        text = page.read().decode()
    values = read(text)
    print(f"{url}: {len(values)} numbers{', also by prometheus_client' if also(text, values) else ''}")

"""The tables of YAML texts with which the reader of crates/yaml_profile is tested. tests/rows/tables/yaml_profile.py has the texts that
are read, and tests/rows/tables/yaml_profile_refused.py those that are refused."""
import os
import re

from places import CRATES
from row_tables import table_of


def read_rows():
    """The rows of texts that are read: the text, and its node as the table shows it."""
    return table_of("yaml_profile").READ


def refused_rows():
    """The rows of texts that are refused: the text, and the kind of its fault."""
    return [(text, kind) for text, kind, _ in table_of("yaml_profile_refused").REFUSED]


def most_nodes():
    """How many nodes may lie within one another."""
    with open(os.path.join(CRATES, "yaml_lines/src/node.rt"), encoding="utf-8") as file:
        return int(re.search(r"MOST_NODES: usize = (\d+);", file.read())[1])

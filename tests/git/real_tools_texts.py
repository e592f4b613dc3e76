"""Hooks by tools for texts and data, for tests/git/real_tools.py."""
from real_tools_case import Case, Edit, entry, whole, whole_shell

PAGE = '<!DOCTYPE html>\n<html lang="en"><head><title>A page</title></head><body><p>Text</p></body></html>\n'
DATA = '<?xml version="1.0"?>\n<!DOCTYPE data SYSTEM "data.dtd">\n<data><row/></data>\n'
ROWS = "<!ELEMENT data (row*)>\n<!ELEMENT row EMPTY>\n"
SPELLING = "[codespell]\nignore-words-list = teh\n"
YAML_RULES = "rules:\n  key-duplicates: enable\n  line-length: {max: 80}\n"


def spelling():
    told = Edit(".codespellrc", {"/.codespellrc": SPELLING.replace("teh", "fo")}, {"/.codespellrc": SPELLING.replace("teh", "teh,fo")})
    listed = Edit("a list of words", {"words.txt": "fo\n"}, {"words.txt": "adn\nfo\n"})
    return [
        Case("codespell_names", entry("codespell"), {"/.codespellrc": SPELLING, "a.md": "teh end\n"}, {"a.md": "to recieve\n"}, (told,)),
        Case("codespell_dot", whole("codespell --skip ./codespell_list ."), {"a.md": "teh end\n"}, {"a.md": "to recieve\n"}, (told,)),
        Case("codespell_list", entry("codespell --ignore-words=codespell_list/words.txt") + ", files: '^codespell_list/a'",
             {"words.txt": "adn\n", "a.txt": "adn so on\n"}, {"a.txt": "to recieve\n"}, (listed,)),
    ]


def data():
    rules = Edit(".yamllint", {"/.yamllint": YAML_RULES.replace("80", "5")}, {"/.yamllint": YAML_RULES.replace("80", "100")})
    doubled = {"a.yaml": "first: 1\nfirst: 2\n"}
    dtd = Edit("the DTD", {"data.dtd": ROWS.replace("row*", "other*")}, {"data.dtd": ROWS.replace("row*", "row+")})
    rule = Edit("a program of jq", {"rule.jq": ".name == \"b\"\n"}, {"rule.jq": ".name != \"b\"\n"})
    return [
        Case("yamllint_names", entry("yamllint"), {"/.yamllint": YAML_RULES, "a.yaml": "first: 1\n"}, doubled, (rules,)),
        Case("yamllint_folder", whole("yamllint yamllint_folder"), {"a.yaml": "first: 1\n"}, doubled, (rules,)),
        Case("xmllint", entry("xmllint --noout"), {"a.xml": PAGE.removeprefix("<!DOCTYPE html>\n")}, {"a.xml": "<a><b></a>\n"}),
        Case("xmllint_valid", entry("xmllint --noout --valid") + ", files: '^xmllint_valid/.*xml$'", {"data.dtd": ROWS, "a.xml": DATA}, {"a.xml": DATA.replace("<row/>", "<no/>")}, (dtd,)),
        Case("jq_empty", entry("jq empty"), {"a.json": "{}\n"}, {"a.json": "{\n"}),
        Case("jq_rule", entry("jq --exit-status --from-file jq_rule/rule.jq") + ", files: '^jq_rule/.*json$'", {"rule.jq": '.name == "a"\n', "a.json": '{"name": "a"}\n'},
             {"a.json": '{"name": "c"}\n', "rule.jq": '.name == "b"\n'}, (rule,)),
        Case("json_tool", entry("python3 -m json.tool"), {"a.json": "{}\n"}, {"a.json": "{\n"}),
    ]


def pages():
    settings = "warn-proprietary-attributes: no\n"
    tidied = Edit("the settings", {"tidy.conf": "warn-proprietary-attributes: yes\n"}, {"tidy.conf": settings + "indent: no\n"})
    page = PAGE.replace("<p>", '<p strange="1">')
    style = Edit(".mdlrc", {"/.mdlrc": 'rules "MD013"\n'}, {"/.mdlrc": 'rules "MD009"\n'})
    return [
        Case("tidy_names", entry("tidy -quiet -errors"), {"a.html": PAGE}, {"a.html": PAGE.replace("</title>", "")}),
        Case("tidy_settings", entry("tidy -quiet -errors -config tidy_settings/tidy.conf") + ", files: '^tidy_settings/.*html$'", {"tidy.conf": settings, "a.html": page},
             {"a.html": PAGE.replace("</title>", "")}, (tidied,)),
        Case("mdl", entry("mdl"), {"/.mdlrc": 'rules "MD010"\n', "a.md": "# A title\n\n" + 20 * "words " + "end\n"}, {"a.md": "# A title\n\n\ta tab\n"}, (style,)),
    ]


def small_tools():
    rule = Edit("a program of awk", {"rule.awk": "NF > 1 { exit 1 }\n"}, {"rule.awk": "NF > 3 { exit 1 }\n"})
    needed = Edit("a file", {"needed.txt": None}, {"needed.txt": "other\n"})
    list_of = Edit("the other file", {"other.txt": "b\n"}, {"other.txt": "a\nc\n"})
    return [
        Case("sed_blanks", entry("sed -i 's/ *$//'"), {"a.txt": "a\n"}, {"a.txt": "a  \n"}),
        Case("sort_check", entry("sort -c"), {"a.txt": "a\nb\n"}, {"a.txt": "b\na\n"}),
        Case("awk_rule", entry("awk -f awk_rule/rule.awk") + ", files: '^awk_rule/.*txt$'", {"rule.awk": "NF > 2 { exit 1 }\n", "a.txt": "a b\n"}, {"a.txt": "a b c d\n"}, (rule,)),
        Case("test_file", entry("test -e test_file/needed.txt -a -n") + ", files: '^test_file/a'", {"needed.txt": "", "a.txt": "a\n"}, {"needed.txt": None}, (needed,)),
        Case("join_files", whole_shell("join -v 1 join_files/a.txt join_files/other.txt | grep -q . && exit 1 || exit 0"), {"a.txt": "a\n", "other.txt": "a\n"}, {"a.txt": "b\n"}, (list_of,)),
        Case("pygrep", "language: pygrep, entry: 'pygrep[_]secret'", {"a.txt": "a\n"}, {"a.txt": "pygrep_secret\n"}),
        Case("pygrep_negate", "language: pygrep, entry: Copyright, args: [--negate]", {"a.txt": "Copyright\n"}, {"a.txt": "a\n"}),
    ]


def cases():
    return spelling() + data() + pages() + small_tools()

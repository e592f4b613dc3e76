"""Hooks by tools for shell, C, JavaScript, Perl and Ruby, and by scripts of the tree, for tests/git/real_tools.py."""
import json

from git_bridge_repository import shell
from real_tools_case import Case, Edit, Script, entry, whole, whole_shell

SHELL = "#!/bin/sh\necho $1\n"
MAIN = '#!/bin/sh\n# shellcheck source=shellcheck_source/values.sh\n. ./shellcheck_source/values.sh\necho "$number"\n'
C = '#include "values.h"\nint main(void) {\n  int row[SIZE];\n  row[4] = 0;\n  return row[4];\n}\n'
ESLINT = {"root": True, "env": {"node": True, "es6": True}, "rules": {"no-var": "off"}}
TSC = {"compilerOptions": {"noEmit": True, "lib": ["es5"], "types": [], "strict": False}, "include": ["*.ts"]}
# It looks for a word in the files of a case, by a rule that is in a file of its own.
CHECK = '#!/bin/sh\n. "./{0}/rule.sh"\n! grep -rn --include=*.txt "$word" {0}\n'


def shells():
    disabled = Edit(".shellcheckrc", {"/.shellcheckrc": "disable=SC2034\n"}, {"/.shellcheckrc": "disable=SC2086,SC2034\n"})
    sourced = Edit("what is sourced", {"values.sh": "#!/bin/sh\nother=1\n"}, {"values.sh": "#!/bin/sh\nnumber=2\n"})
    return [
        Case("shellcheck_names", entry("shellcheck"), {"/.shellcheckrc": "disable=SC2086\n", "a.sh": SHELL}, {"a.sh": "#!/bin/sh\nif\n"}, (disabled,)),
        Case("shellcheck_source", entry("shellcheck -x") + ", files: '^shellcheck_source/main'", {"values.sh": "#!/bin/sh\nnumber=1\n", "main.sh": MAIN},
             {"values.sh": "#!/bin/sh\nother=2\n"}, (sourced,)),
        Case("bash_n", entry("bash -n"), {"a.sh": SHELL}, {"a.sh": "#!/bin/sh\nif\n"}),
    ]


def compilers():
    header = Edit("the header", {"values.h": "#define SIZE 3\n"}, {"values.h": "#define SIZE 6\n"})
    broken = Edit("the header", {"values.h": "#define SIZE -1\n"}, {"values.h": "#define SIZE 6\n"})
    style = Edit(".clang-format", {"/.clang-format": "BasedOnStyle: LLVM\nIndentWidth: 8\n"}, {"/.clang-format": "BasedOnStyle: LLVM\nColumnLimit: 100\n"})
    function = "int main(void) {\n  int number = 0;\n  return number;\n}\n"
    return [
        Case("cppcheck", entry("cppcheck --quiet --error-exitcode=1") + ", files: '^cppcheck/.*c$'", {"values.h": "#define SIZE 5\n", "main.c": C}, {"main.c": C.replace("4", "5")}, (header,)),
        Case("gcc", entry("gcc -fsyntax-only") + ", files: '^gcc/.*c$'", {"values.h": "#define SIZE 5\n", "main.c": C}, {"main.c": C.replace("0;", "0")}, (broken,)),
        Case("clang_format", entry("clang-format --dry-run --Werror"), {"/.clang-format": "BasedOnStyle: LLVM\n", "a.c": function}, {"a.c": function.replace("  ", "    ")}, (style,)),
    ]


def scripts_of_node():
    rules = [json.dumps(ESLINT | {"rules": {"no-var": level, "quotes": other}}) for level, other in (("error", "off"), ("off", "warn"))]
    lint = Edit(".eslintrc.json", {"/.eslintrc.json": rules[0]}, {"/.eslintrc.json": rules[1]})
    ignored = Edit(".eslintignore", {"/.eslintignore": "*.min.js\n"}, {"/.eslintignore": "*.old.js\n*.min.js\n"})
    strict = Edit("tsconfig.json", {"tsconfig.json": json.dumps(TSC).replace("false", "true")}, {"tsconfig.json": json.dumps(TSC).replace("es5", "es6")})
    values = Edit("a module", {"values.ts": 'export const size: string = "a";\n'}, {"values.ts": "export const size: number = 2;\n"})
    required = Edit("a module", {"values.js": "module.exports = 2;\n"}, {"values.js": "module.exports = 3 - 2;\n"})
    code = {"a.js": "var number = 1;\nmodule.exports = number;\n"}
    return [
        Case("eslint_names", entry("eslint --format unix"), {"/.eslintrc.json": json.dumps(ESLINT)} | code, {"a.js": "var = 1;\n"}, (lint,)),
        Case("eslint_folder", whole("eslint --format unix eslint_folder"), {"/.eslintignore": "*.old.js\n", "a.old.js": "var = 1;\n"} | code, {"a.js": "var = 1;\n"}, (ignored,)),
        Case("tsc", whole("tsc --project tsc"), {"tsconfig.json": json.dumps(TSC), "values.ts": "export const size: number = 1;\n",
             "main.ts": 'import { size } from "./values";\nexport function sum(row) {\n  const one: number = size;\n  return row + one;\n}\n'}, {"main.ts": "const = 1;\n"}, (strict, values)),
        Case("node_check", entry("node --check"), code, {"a.js": "var = 1;\n"}),
        Case("node_script", entry("node node_script/main.js") + ", files: '^node_script/main'",
             {"values.js": "module.exports = 1;\n", "main.js": 'process.exit(require("./values") === 1 ? 0 : 1);\n'},
             {"values.js": "module.exports = 4;\n"}, (required,)),
    ]


def perl_and_ruby():
    severity = Edit(".perlcriticrc", {"/.perlcriticrc": "severity = 1\n"}, {"/.perlcriticrc": "severity = 5\nverbose = 1\n"})
    used = Edit("a module", {"lib/Values.pm": "package Values;\nsub {\n"}, {"lib/Values.pm": "package Values;\n2;\n"})
    return [
        Case("perlcritic", entry("perlcritic --quiet"), {"/.perlcriticrc": "severity = 5\n", "a.pl": "use strict;\nuse warnings;\nprint 1;\n"}, {"a.pl": "$a = 1;\n"}, (severity,)),
        Case("perl_c", entry("perl -Iperl_c/lib -c") + ", files: '^perl_c/.*pl$'", {"lib/Values.pm": "package Values;\n1;\n",
             "a.pl": "use strict;\nuse Values;\n"}, {"a.pl": "use strict;\n$b1 = ;\n"}, (used,)),
        Case("ruby_c", entry("ruby -wc"), {"a.rb": "puts 1\n"}, {"a.rb": "def (\n"}),
    ]


def scripts_of_the_tree():
    """Scripts that are called in several ways, each of which sources a rule."""
    calls = [
        ("make_lint", whole("make --silent --file=make_lint/Makefile lint")),
        ("bash_c", entry("bash -c ./bash_c/check.sh")),
        ("sh_script", entry("sh sh_script/check.sh")),
        ("env_script", entry("env ./env_script/check.sh")),
        ("script_hook", "language: script, entry: script_hook/check.sh"),
        ("system_script", entry("system_script/check.sh")),
    ]
    found = []
    for name, keys in calls:
        files = {"check.sh": Script(CHECK.format(name)), "rule.sh": f"word='{name}[_]secret'\n", "a.txt": f"{name}_told\n"}
        if name == "make_lint":
            files["Makefile"] = "lint:\n\t./make_lint/check.sh\n"
        told = Edit("what is sourced", {"rule.sh": f"word='{name}[_]told'\n"}, {"rule.sh": f"word='{name}[_]other'\n"})
        found.append(Case(name, keys + f", files: '^{name}/.*txt$'", files, {"a.txt": f"{name}_secret\n"}, (told,)))
    mode = Edit("the mode of a file", {"run.sh": SHELL}, {"run.sh": Script(SHELL + "true\n")})
    found.append(Case("test_x", whole_shell("test -x test_x/run.sh"), {"run.sh": Script(SHELL)}, {"run.sh": SHELL}, (mode,)))
    found.append(Case("executables", shell('! grep -Hn executables[_]secret -- "$@"') + ", types: [executable]", {"a.sh": Script(SHELL), "b.sh": "executables_secret\n"},
                      {"b.sh": Script("executables_secret\n")}))
    return found


def cases():
    return shells() + compilers() + scripts_of_node() + perl_and_ruby() + scripts_of_the_tree()

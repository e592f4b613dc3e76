"""For scripts that import a library of Debian's packages, which the `python3` of the path may not see."""
import os
import sys

# The Python that Debian's packages serve.
DEBIANS_PYTHON = "/usr/bin/python3"

# Set for the second try, so that there is no third.
SECOND_TRY = "SECOND_TRY_BY_DEBIANS_PYTHON"


def try_again(lacking):
    """If an import failed: begins the script again under Debian's own Python. If that was tried, ends it as a failure that names what is
    lacking."""
    if SECOND_TRY not in os.environ and os.access(DEBIANS_PYTHON, os.X_OK):
        os.environ[SECOND_TRY] = "1"
        os.execv(DEBIANS_PYTHON, [DEBIANS_PYTHON, *sys.orig_argv[1:]])
    sys.exit(f"{os.path.relpath(sys.argv[0])}: there is no {lacking} to compare with")

"""The parts of pre-commit that an import uses, by the names that its releases give them."""
import contextlib
import logging
import os
import sys

from hookhost_import.basics import BadConfiguration, Refused

try:
    import yaml
    from pre_commit.clientlib import load_config
    from pre_commit.commands.run import Classifier
    from pre_commit.envcontext import UNSET
    from pre_commit.errors import FatalError
    from pre_commit.repository import all_hooks, install_hook_envs
    from pre_commit.store import Store
    from pre_commit.util import CalledProcessError
    try:
        from pre_commit import lang_base
        from pre_commit.all_languages import languages
    except ImportError:  # before 3.1
        from pre_commit.languages import helpers as lang_base
        from pre_commit.languages.all import languages
except ImportError as why:
    raise Refused(f"{sys.executable} has no pre-commit of a release that is known: {why}") from None

# Releases from 4.4 on have another name for each.
SYSTEM, SCRIPT = ("system", "unsupported"), ("script", "unsupported_script")
__all__ = ["Classifier", "SCRIPT", "SYSTEM", "Store", "UNSET", "all_hooks", "as_written", "environment_of", "install_hook_envs", "languages",
           "loaded", "modules", "runs_plainly", "speaking", "text_of_some"]


class Messages(logging.Handler):
    """Prints on standard error what pre-commit says, since its own handler prints it on standard output."""

    def __init__(self):
        super().__init__()
        self.last = ""

    def emit(self, record):
        text = record.getMessage()
        if record.levelno >= logging.ERROR:
            self.last = text
        # A hook's own keys of hookhost are none that pre-commit knows.
        if "Unexpected key(s)" not in text:
            print(f"[{record.levelname}] {text}", file=sys.stderr, flush=True)


@contextlib.contextmanager
def speaking():
    """Prints what pre-commit says meanwhile, and turns each way in which it ends into a refusal."""
    logger, messages = logging.getLogger("pre_commit"), Messages()
    logger.addHandler(messages)
    logger.setLevel(logging.INFO)
    try:
        yield
    except SystemExit:
        raise BadConfiguration("pre-commit doesn't take the configuration" + (": " + messages.last if messages.last else "")) from None
    except (CalledProcessError, FatalError, AssertionError, OSError, ValueError) as why:
        raise Refused(f"pre-commit can't install the hooks: {str(why).strip()}") from None
    finally:
        logger.removeHandler(messages)


def loaded(path):
    """The configuration as pre-commit reads it, with its defaults."""
    try:
        return load_config(path)
    except FatalError as why:
        raise BadConfiguration(f"pre-commit doesn't take the configuration: {str(why).strip()}") from None


def as_written(path):
    """The configuration without defaults. With all of them pre-commit wouldn't take a hook of `repo: meta`."""
    with open(path, encoding="utf-8") as file:
        found = yaml.safe_load(file)
    # Before 3.0 the repositories alone may be the configuration.
    return {"repos": found} if isinstance(found, list) else found


def text_of_some(config, places, left_out):
    """The text of a configuration, as it is written, with the hooks at these places alone, and without these keys of hooks."""
    repos = []
    for number, repo in enumerate(config["repos"]):
        hooks = [{key: it for key, it in hook.items() if key not in left_out} for at, hook in enumerate(repo["hooks"]) if (number, at) in places]
        repos += [repo | {"hooks": hooks}] if hooks else []
    return yaml.safe_dump(config | {"repos": repos}, allow_unicode=True, sort_keys=False)


def modules():
    """The files of the modules that decide what is made: a later release may make something else."""
    names = ("hookhost_import", "identify", "pre_commit")
    found = [module for name, module in list(sys.modules.items()) if name.split(".")[0] in names]
    return {os.path.realpath(module.__file__) for module in found if getattr(module, "__file__", None)}


def environment_of(hook):
    """The folder of the hook's environment, or None for a language that has none."""
    folder = languages[hook.language].ENVIRONMENT_DIR
    return folder and lang_base.environment_dir(hook.prefix, folder, hook.language_version)


def runs_plainly(language):
    """Whether hooks of the language are their words in an environment, and nothing else."""
    return languages[language].run_hook is lang_base.basic_run_hook and hasattr(languages[language], "envcontext")

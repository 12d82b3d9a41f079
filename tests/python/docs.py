"""Runs the examples in the docstrings of the installed package: docs.py. The last line is 'N passed, M failed'."""
import doctest
import importlib
import pkgutil
import sys

import curlew


def examples():
    """The tests in the docstrings of all that the package shows, of itself and of its parts, each of them once."""
    finder = doctest.DocTestFinder()
    found = [finder.find(curlew)]
    for name in curlew.__all__:
        thing = getattr(curlew, name)
        if getattr(thing, "__module__", None) == "curlew":
            found.append(finder.find(thing, f"curlew.{name}", module=False, globs=vars(curlew).copy()))
    for part in pkgutil.iter_modules(curlew.__path__, "curlew."):
        found.append(finder.find(importlib.import_module(part.name)))
    tests = {test.docstring: test for tests in reversed(found) for test in tests}
    return sorted(tests.values())


def undocumented():
    """The public names without a docstring."""
    for name in curlew.__all__:
        thing = getattr(curlew, name)
        if callable(thing) and getattr(thing, "__module__", None) == "curlew":
            if not thing.__doc__:
                yield name
            members = vars(thing).items() if isinstance(thing, type) else ()
            yield from (f"{name}.{member}" for member, value in members if not member.startswith("_")
                        and (callable(value) or isinstance(value, property)) and not value.__doc__)


def main():
    runner = doctest.DocTestRunner()
    for test in examples():
        runner.run(test)
    failed, tried = runner.summarize(verbose=False)
    for name in undocumented():
        print(f"no docstring: {name}")
        failed += 1
    print(f"{tried - failed} passed, {failed} failed")
    sys.exit(failed > 0 or tried < 50)


main()
